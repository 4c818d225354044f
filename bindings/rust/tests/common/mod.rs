//! Journals to try, and the Rust's recorded answers.
#![allow(dead_code)]

pub mod pairs;

use beamtassel::{Block, Report};
use std::path::Path;

pub fn voter(id: u32, weight: u64) -> Vec<u8> {
    [&b"Vt"[..], &id.to_le_bytes(), &weight.to_le_bytes()].concat()
}

pub fn root(id: u32, number: u32) -> Vec<u8> {
    [&b"Rt"[..], &id.to_le_bytes(), &number.to_le_bytes()].concat()
}

pub fn block(id: u32, parent: u32) -> Vec<u8> {
    [&b"Bk"[..], &id.to_le_bytes(), &parent.to_le_bytes()].concat()
}

pub fn open(round: u64, base: u32) -> Vec<u8> {
    [&b"Op"[..], &round.to_le_bytes(), &base.to_le_bytes()].concat()
}

pub fn vote(mark: &[u8], voter: u32, target: u32, number: u32, signature: u64) -> Vec<u8> {
    [mark, &voter.to_le_bytes(), &target.to_le_bytes(), &number.to_le_bytes(), &signature.to_le_bytes()].concat()
}

pub fn prevote(voter: u32, target: u32, number: u32) -> Vec<u8> {
    vote(b"Pv", voter, target, number, 0)
}

pub fn precommit(voter: u32, target: u32, number: u32) -> Vec<u8> {
    vote(b"Pc", voter, target, number, 0)
}

/// Document 01, case J, up to its Op and for a round of any number: nine records.
pub fn opened(round: u64) -> Vec<u8> {
    let mut journal: Vec<u8> = (1..=4).flat_map(|id| voter(id, 1)).collect();
    journal.extend(root(10, 0));
    journal.extend(block(11, 10));
    journal.extend(block(12, 11));
    journal.extend(block(13, 11));
    journal.extend(open(round, 10));
    journal
}

/// Its prevotes.
pub fn prevotes() -> Vec<u8> {
    [prevote(1, 12, 2), prevote(2, 12, 2), prevote(3, 13, 2), prevote(4, 12, 2)].concat()
}

/// The whole of it: sixteen records, 264 bytes.
pub fn case_j() -> Vec<u8> {
    [opened(7), prevotes(), precommit(1, 12, 2), precommit(2, 12, 2), precommit(3, 11, 1)].concat()
}

/// What document 01 says of it.
pub const LINES_J: &str = "round 7
prevote 4 of 4 need 3 voters 4
precommit 3 of 4 need 3 voters 3
ghost 12 2
estimate 12 2
final 11 1
completable yes
tail 0
";

/// The whole records of a journal that is accepted, and the bytes after them.
pub fn records(journal: &[u8]) -> (Vec<&[u8]>, &[u8]) {
    let (mut found, mut rest) = (Vec::new(), journal);
    loop {
        let size = match rest.get(..2) {
            Some(b"Vt" | b"Op") => 14,
            Some(b"Rt" | b"Bk") => 10,
            Some(b"Pv" | b"Pc") => 22,
            _ => return (found, rest),
        };
        if rest.len() < size {
            return (found, rest);
        }
        found.push(&rest[..size]);
        rest = &rest[size..];
    }
}

/// A field of a record, at a byte.
pub fn word(record: &[u8], at: usize) -> u32 {
    u32::from_le_bytes(record[at..at + 4].try_into().unwrap())
}

fn block_line(name: &str, block: Option<Block>) -> String {
    match block {
        Some(block) => format!("{name} {} {}\n", block.id, block.number),
        None => format!("{name} none\n"),
    }
}

/// A report as document 01's lines, written here once more.
pub fn as_lines(report: &Report) -> String {
    match report {
        Report::Refused { refusal, record } => format!("refused {} at {record}\n", refusal.number()),
        Report::NoRound { tail, .. } => format!("no round\ntail {tail}\n"),
        Report::Round(r) => [
            format!("round {}\n", r.number),
            format!("prevote {} of {} need {} voters {}\n", r.prevote_weight, r.total, r.threshold, r.prevoters),
            format!(
                "precommit {} of {} need {} voters {}\n",
                r.precommit_weight, r.total, r.threshold, r.precommitters
            ),
            block_line("ghost", r.ghost),
            block_line("estimate", r.estimate),
            block_line("final", r.finalized),
            format!("completable {}\n", if r.completable { "yes" } else { "no" }),
            format!("tail {}\n", r.tail),
        ]
        .concat(),
    }
}

/// A recorded list of the Rust's answers: journals, each with what it said.
pub fn recorded(name: &str) -> Vec<(Vec<u8>, String)> {
    let path = Path::new(env!("CARGO_MANIFEST_DIR")).join("../../oracle/list").join(name);
    let list = std::fs::read(&path).unwrap_or_else(|error| panic!("{}: {error}", path.display()));
    let (mut pairs, mut at) = (Vec::new(), 0);
    while at < list.len() {
        let journal = at + 8;
        let answer = journal + word(&list, at) as usize;
        let end = answer + word(&list, at + 4) as usize;
        pairs.push((list[journal..answer].to_vec(), String::from_utf8(list[answer..end].to_vec()).unwrap()));
        at = end;
    }
    pairs
}
