//! Journals as bytes, as records and as text.

/// One record; `Raw` is bytes that are no record.
#[derive(Clone, Debug, PartialEq)]
pub enum Record {
    Vt(u32, u64),
    Rt(u32, u32),
    Bk(u32, u32),
    Op(u64, u32),
    /// Precommit or not, voter, target, number, signature.
    Vote(bool, u32, u32, u32, u64),
    Raw(Vec<u8>),
}

use Record::*;

impl Record {
    pub fn put(&self, out: &mut Vec<u8>) {
        match self {
            Vt(voter, weight) => {
                out.extend(b"Vt");
                out.extend(voter.to_le_bytes());
                out.extend(weight.to_le_bytes());
            }
            Rt(a, b) | Bk(a, b) => {
                out.extend(if matches!(self, Rt(..)) { b"Rt" } else { b"Bk" });
                out.extend(a.to_le_bytes());
                out.extend(b.to_le_bytes());
            }
            Op(round, base) => {
                out.extend(b"Op");
                out.extend(round.to_le_bytes());
                out.extend(base.to_le_bytes());
            }
            Vote(precommit, voter, target, number, signature) => {
                out.extend(if *precommit { b"Pc" } else { b"Pv" });
                out.extend(voter.to_le_bytes());
                out.extend(target.to_le_bytes());
                out.extend(number.to_le_bytes());
                out.extend(signature.to_le_bytes());
            }
            Raw(bytes) => out.extend(bytes),
        }
    }
}

pub fn bytes(records: &[Record]) -> Vec<u8> {
    let mut out = Vec::new();
    for record in records {
        record.put(&mut out);
    }
    out
}

/// The whole records; from the first unknown mark or cut on, the bytes as they are.
pub fn records(mut rest: &[u8]) -> Vec<Record> {
    fn u32_at(b: &[u8], at: usize) -> u32 {
        u32::from_le_bytes(b[at..at + 4].try_into().unwrap())
    }
    fn u64_at(b: &[u8], at: usize) -> u64 {
        u64::from_le_bytes(b[at..at + 8].try_into().unwrap())
    }
    let mut out = Vec::new();
    while !rest.is_empty() {
        let (record, length) = match rest.get(..2) {
            Some(b"Vt") if rest.len() >= 14 => (Vt(u32_at(rest, 2), u64_at(rest, 6)), 14),
            Some(b"Op") if rest.len() >= 14 => (Op(u64_at(rest, 2), u32_at(rest, 10)), 14),
            Some(b"Rt") if rest.len() >= 10 => (Rt(u32_at(rest, 2), u32_at(rest, 6)), 10),
            Some(b"Bk") if rest.len() >= 10 => (Bk(u32_at(rest, 2), u32_at(rest, 6)), 10),
            Some(mark @ (b"Pv" | b"Pc")) if rest.len() >= 22 => {
                let at = |at| u32_at(rest, at);
                (Vote(mark == b"Pc", at(2), at(6), at(10), u64_at(rest, 14)), 22)
            }
            _ => (Raw(rest.to_vec()), rest.len()),
        };
        out.push(record);
        rest = &rest[length..];
    }
    out
}

pub fn text(journal: &[u8]) -> String {
    let mut out = String::new();
    for (k, record) in records(journal).iter().enumerate() {
        let line = match record {
            Vt(voter, weight) => format!("Vt voter {voter} weight {weight}"),
            Rt(root, number) => format!("Rt root {root} number {number}"),
            Bk(block, parent) => format!("Bk block {block} parent {parent}"),
            Op(round, base) => format!("Op round {round} base {base}"),
            Vote(precommit, voter, target, number, signature) => {
                let mark = if *precommit { "Pc" } else { "Pv" };
                format!("{mark} voter {voter} target {target} number {number} signature {signature}")
            }
            Raw(bytes) => format!("bytes {}", hex(bytes)),
        };
        out += &format!("{:4} {line}\n", k + 1);
    }
    out
}

pub fn hex(bytes: &[u8]) -> String {
    bytes.iter().map(|b| format!("{b:02x}")).collect()
}

/// Case J of document 01.
pub fn case_j() -> Vec<Record> {
    let mut j: Vec<Record> = (1..5).map(|voter| Vt(voter, 1)).collect();
    j.extend([Rt(10, 0), Bk(11, 10), Bk(12, 11), Bk(13, 11), Op(7, 10)]);
    j.extend([(1, 12), (2, 12), (3, 13), (4, 12)].map(|(v, t)| Vote(false, v, t, 2, 0)));
    j.extend([(1, 12, 2), (2, 12, 2), (3, 11, 1)].map(|(v, t, n)| Vote(true, v, t, n, 0)));
    j
}
