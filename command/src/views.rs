//! What keeps two journals from being of one round (refusal 16), in words, and a journal with its blocks in one order. Only words: that two
//! journals are not of one round is the library's answer.
use std::collections::BTreeMap;

/// What a round is opened on.
#[derive(Default)]
struct Opening {
    voters: BTreeMap<u64, u64>,
    /// The blocks in the order in which they were learned, with their parents; the root is its own.
    blocks: Vec<(u64, u64)>,
    root_number: u64,
    round: Option<(u64, u64)>,
}

fn number(bytes: &[u8]) -> u64 {
    bytes.iter().rev().fold(0, |sum, byte| sum << 8 | u64::from(*byte))
}

/// The whole records of a journal, and the bytes after them.
fn records(journal: &[u8]) -> (Vec<&[u8]>, &[u8]) {
    let (mut found, mut rest) = (Vec::new(), journal);
    loop {
        let size = match rest.get(..2) {
            Some(b"Vt" | b"Op") => 14,
            Some(b"Rt" | b"Bk") => 10,
            Some(b"Pv" | b"Pc") => 22,
            _ => return (found, rest),
        };
        let Some(record) = rest.get(..size) else {
            return (found, rest);
        };
        found.push(record);
        rest = &rest[size..];
    }
}

fn opening(journal: &[u8]) -> Opening {
    let mut found = Opening::default();
    for record in records(journal).0 {
        match &record[..2] {
            b"Vt" if number(&record[6..14]) != 0 => {
                let weight = found.voters.entry(number(&record[2..6])).or_insert(0);
                *weight = weight.saturating_add(number(&record[6..14]));
            }
            b"Rt" => {
                found.blocks.push((number(&record[2..6]), number(&record[2..6])));
                found.root_number = number(&record[6..10]);
            }
            b"Bk" => found.blocks.push((number(&record[2..6]), number(&record[6..10]))),
            b"Op" => found.round = Some((number(&record[2..10]), number(&record[10..14]))),
            _ => {}
        }
    }
    found
}

/// A journal that was not refused, with its blocks in one order: all right after the root, by rising number and then by rising id. A parent has a
/// lower number than its child, so it comes first, and each block is there before it is voted for.
pub fn in_one_order(journal: &[u8]) -> Vec<u8> {
    let (records, tail) = records(journal);
    let mut numbers = BTreeMap::new();
    let mut blocks = Vec::new();
    for record in &records {
        let id = number(&record[2..6]);
        match &record[..2] {
            b"Rt" => {
                numbers.insert(id, number(&record[6..10]));
            }
            b"Bk" => {
                let above = numbers.get(&number(&record[6..10])).copied().unwrap_or(0);
                numbers.insert(id, above + 1);
                blocks.push((above + 1, id, *record));
            }
            _ => {}
        }
    }
    blocks.sort_unstable();
    let mut out = Vec::with_capacity(journal.len());
    for record in records {
        if &record[..2] != b"Bk" {
            out.extend_from_slice(record);
        }
        if &record[..2] == b"Rt" {
            blocks.iter().for_each(|(_, _, block)| out.extend_from_slice(block));
        }
    }
    out.extend_from_slice(tail);
    out
}

fn sorted(blocks: &[(u64, u64)]) -> Vec<(u64, u64)> {
    let mut blocks = blocks.to_vec();
    blocks.sort_unstable();
    blocks
}

/// The first thing in which two journals differ that were not refused, if it is found.
pub fn apart(a: &[u8], b: &[u8]) -> Option<String> {
    let (a, b) = (opening(a), opening(b));
    let (Some((round_a, base_a)), Some((round_b, base_b))) = (a.round, b.round) else {
        let which = match (a.round, b.round) {
            (None, None) => "neither opens a round",
            (None, _) => "the first opens no round",
            _ => "the second opens no round",
        };
        return Some(which.into());
    };
    if round_a != round_b {
        return Some(format!("round {round_a} and round {round_b}"));
    }
    if a.voters != b.voters {
        return Some("their voters differ".into());
    }
    if base_a != base_b {
        return Some(format!("base {base_a} and base {base_b}"));
    }
    if a.blocks == b.blocks && a.root_number == b.root_number {
        return None;
    }
    if a.root_number == b.root_number && sorted(&a.blocks) == sorted(&b.blocks) {
        return Some("the same blocks in another order; `beamtassel text --sort-blocks` gives both one order".into());
    }
    Some("their blocks differ".into())
}
