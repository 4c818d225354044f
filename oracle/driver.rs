//! The judge's driver: reads journals, hands their votes to the Rust, prints what it answers.
//!
//! `oracle/build` puts this file beside the Rust's own as one more module, because `import_prevote`
//! and `import_precommit` are visible inside the crate only. What document 01 adds to the Rust is
//! judged here: the block table, turns, and refusals 1 to 8, 10 to 13, 17 and 18.

extern crate std as host;

use crate::{
    bitfield::Bitfield,
    round::{Round, RoundParams},
    voter_set::VoterSet,
    Chain, Equivocation, Error, Message, Precommit, Prevote,
};
use alloc::{string::String, vec::Vec};
use core::fmt::Write as _;
use host::{
    io::{self, Read, Write as _},
    panic::{catch_unwind, set_hook, AssertUnwindSafe},
    process::exit,
    time::Instant,
};

const MOST_PAIRS: usize = 256;
const MOST_VOTERS: usize = 64;
const MOST_BLOCKS: usize = 256;

/// The block table of document 01. Places are rising, a parent's place is smaller than its child's.
struct Table {
    ids: Vec<u32>,
    numbers: Vec<u32>,
    parents: Vec<usize>,
    /// Whether a block is at or below the base, kept from the opening on: a climb for every first
    /// vote would be charged to the Rust in `--bench`.
    under_base: Vec<bool>,
    /// Places by a hash of the id, plus 1; 0 is free. Twice as many as blocks, so a search ends.
    slots: [u16; 2 * MOST_BLOCKS],
}

impl Table {
    fn new() -> Self {
        Table {
            ids: Vec::with_capacity(MOST_BLOCKS),
            numbers: Vec::with_capacity(MOST_BLOCKS),
            parents: Vec::with_capacity(MOST_BLOCKS),
            under_base: Vec::with_capacity(MOST_BLOCKS),
            slots: [0; 2 * MOST_BLOCKS],
        }
    }

    /// The slot that holds `id`, or the free one where it would go.
    fn slot(&self, id: u32) -> usize {
        let mut at = (id.wrapping_mul(0x9E37_79B1) >> 23) as usize;
        while self.slots[at] != 0 && self.ids[self.slots[at] as usize - 1] != id {
            at = (at + 1) % self.slots.len();
        }
        at
    }

    fn find(&self, id: u32) -> Option<usize> {
        (self.slots[self.slot(id)] as usize).checked_sub(1)
    }

    fn push(&mut self, id: u32, number: u32, parent: usize, under_base: bool) {
        let slot = self.slot(id);
        self.ids.push(id);
        self.numbers.push(number);
        self.parents.push(parent);
        self.under_base.push(under_base);
        self.slots[slot] = self.ids.len() as u16;
    }

    fn add(&mut self, id: u32, parent: u32) -> Result<(), u32> {
        if self.find(id).is_some() {
            return Err(5);
        }
        let parent = self.find(parent).ok_or(6u32)?;
        let number = self.numbers[parent].checked_add(1).ok_or(7u32)?;
        if self.ids.len() >= MOST_BLOCKS {
            return Err(8);
        }
        self.push(id, number, parent, self.under_base[parent]);
        Ok(())
    }

    fn open(&mut self, base: usize) {
        for at in 0..self.ids.len() {
            self.under_base[at] = at == base || (at > base && self.under_base[self.parents[at]]);
        }
    }
}

impl Chain<u32, u32> for Table {
    fn ancestry(&self, base: u32, block: u32) -> Result<Vec<u32>, Error> {
        let (Some(base), Some(mut at)) = (self.find(base), self.find(block)) else {
            return Err(Error::NotDescendent);
        };
        let mut line = Vec::new();
        // Parents have smaller places, so a climb that passes the base's place has missed it.
        while at > base {
            at = self.parents[at];
            if at == base {
                return Ok(line);
            }
            line.push(self.ids[at]);
        }
        Err(Error::NotDescendent)
    }
}

#[derive(PartialEq)]
enum Turn {
    Voters,
    Blocks,
    Votes,
}

/// What is printed besides the last lines.
#[derive(Clone, Copy, PartialEq)]
enum Telling {
    Last,
    /// The replay lines without the tail after every vote record.
    Answers,
    /// Everything the Rust can be asked after every vote record. `precommit_ghost` stores what it
    /// finds, so when it is asked matters: after every n-th vote record.
    Trace(u32),
}

struct Judge {
    turn: Turn,
    pairs: Vec<(u32, u64)>,
    voters: Option<VoterSet<u32>>,
    table: Table,
    round: Option<Round<u32, u32, u32, u64>>,
    /// Voters by place with a recorded vote, prevotes and precommits: only a first vote is looked up.
    heard: [u64; 2],
    votes: u32,
    telling: Telling,
    /// First votes go to the Rust as they are, to see what it does where document 01 refuses.
    raw: bool,
}

fn u32_at(fields: &[u8], at: usize) -> u32 {
    u32::from_le_bytes(fields[at..at + 4].try_into().expect("four bytes"))
}

fn u64_at(fields: &[u8], at: usize) -> u64 {
    u64::from_le_bytes(fields[at..at + 8].try_into().expect("eight bytes"))
}

/// The whole length of a record with this mark.
fn length(mark: &[u8]) -> Option<usize> {
    match mark {
        b"Vt" | b"Op" => Some(14),
        b"Rt" | b"Bk" => Some(10),
        b"Pv" | b"Pc" => Some(22),
        _ => None,
    }
}

impl Judge {
    fn new(telling: Telling, raw: bool) -> Self {
        Judge {
            turn: Turn::Voters,
            pairs: Vec::new(),
            voters: None,
            table: Table::new(),
            round: None,
            heard: [0, 0],
            votes: 0,
            telling,
            raw,
        }
    }

    /// One whole record with a known mark.
    fn take(&mut self, mark: &[u8], fields: &[u8], out: &mut String) -> Result<(), u32> {
        let in_turn = match mark {
            b"Vt" | b"Rt" => self.turn == Turn::Voters,
            b"Op" => self.turn == Turn::Blocks,
            b"Bk" => self.turn != Turn::Voters,
            _ => self.turn == Turn::Votes,
        };
        if !in_turn {
            return Err(18);
        }
        match mark {
            b"Vt" => {
                if self.pairs.len() >= MOST_PAIRS {
                    return Err(1);
                }
                self.pairs.push((u32_at(fields, 0), u64_at(fields, 4)));
            }
            b"Rt" => {
                self.voters = Some(voter_set(&self.pairs)?);
                self.table.push(u32_at(fields, 0), u32_at(fields, 4), 0, false);
                self.turn = Turn::Blocks;
            }
            b"Bk" => self.table.add(u32_at(fields, 0), u32_at(fields, 4))?,
            b"Op" => {
                let base = self.table.find(u32_at(fields, 8)).ok_or(10u32)?;
                self.table.open(base);
                self.round = Some(Round::new(RoundParams {
                    round_number: u64_at(fields, 0),
                    voters: self.voters.take().expect("made at Rt"),
                    base: (self.table.ids[base], self.table.numbers[base]),
                }));
                self.turn = Turn::Votes;
                if let Telling::Trace(_) = self.telling {
                    self.tell_open(out);
                }
            }
            _ => self.vote(mark == b"Pc", fields, out)?,
        }
        Ok(())
    }

    fn vote(&mut self, precommit: bool, fields: &[u8], out: &mut String) -> Result<(), u32> {
        let (id, target) = (u32_at(fields, 0), u32_at(fields, 4));
        let (number, signature) = (u32_at(fields, 8), u64_at(fields, 12));
        let round = self.round.as_mut().expect("opened");
        let place = round.voters().get(&id).map(|info| info.position());

        if let Some(place) = place {
            let heard = &mut self.heard[precommit as usize];
            if *heard >> place & 1 == 0 && !self.raw {
                // The Rust would count the weight of a first vote whose insert fails, and takes a
                // wrong number unchecked, so it must not see one.
                let at = self.table.find(target).ok_or(11u32)?;
                if self.table.numbers[at] != number {
                    return Err(12);
                }
                if !self.table.under_base[at] {
                    return Err(13);
                }
                *heard |= 1 << place;
            }
        }

        let before = round.historical_votes().seen().len();
        let result = if precommit {
            let vote = Precommit::new(target, number);
            round.import_precommit(&self.table, vote, id, signature).map(|result| {
                let pairs = result.equivocation.map(|e| both(e, |v| (v.target_hash, v.target_number)));
                (result.valid_voter, result.duplicated, pairs)
            })
        } else {
            let vote = Prevote::new(target, number);
            round.import_prevote(&self.table, vote, id, signature).map(|result| {
                let pairs = result.equivocation.map(|e| both(e, |v| (v.target_hash, v.target_number)));
                (result.valid_voter, result.duplicated, pairs)
            })
        };
        self.votes += 1;
        let (valid, duplicated, pairs) = match result {
            Ok(result) => result,
            Err(Error::NotDescendent) if self.raw => {
                let _ = writeln!(out, "vote {} error NotDescendent", self.votes);
                return Ok(());
            }
            Err(Error::NotDescendent) => panic!("first votes were looked up"),
        };

        match self.telling {
            Telling::Last => {}
            Telling::Answers => tell_answers(round, out),
            Telling::Trace(every) => {
                // The set's first voter is "we": its recorded votes set the two indexes.
                if place == Some(0) && before < round.historical_votes().seen().len() {
                    if precommit {
                        round.set_precommitted_index();
                    } else {
                        round.set_prevoted_index();
                    }
                }
                let said = [yes(valid), yes(duplicated)];
                let _ = writeln!(out, "vote {} valid {} duplicated {}", self.votes, said[0], said[1]);
                out.push_str("equivocation");
                match pairs {
                    None => out.push_str(" none\n"),
                    Some((number, id, [a, b])) => {
                        let _ = writeln!(
                            out,
                            " {number} {id} first {} {} {} second {} {} {}",
                            a.0, a.1, a.2, b.0, b.1, b.2
                        );
                    }
                }
                tell_answers(round, out);
                if self.votes % every == 0 {
                    tell_block("precommit_ghost", round.precommit_ghost().as_ref(), out);
                }
                tell_finalizing(round, &self.table, out);
                tell_history(round, out);
            }
        }
        Ok(())
    }

    fn tell_open(&self, out: &mut String) {
        let round = self.round.as_ref().expect("opened");
        let ((base, number), voters) = (round.base(), round.voters());
        let _ = writeln!(
            out,
            "open {} base {base} {number} total {} need {} voters {} primary {}",
            round.number(),
            voters.total_weight().get(),
            round.threshold().get(),
            voters.len(),
            round.primary_voter().0,
        );
    }
}

type Pair = (u32, u32, u64);

fn both<V>(e: Equivocation<u32, V, u64>, target: impl Fn(&V) -> (u32, u32)) -> (u64, u32, [Pair; 2]) {
    let flat = |(vote, signature): &(V, u64)| {
        let (id, number) = target(vote);
        (id, number, *signature)
    };
    (e.round_number, e.identity, [flat(&e.first), flat(&e.second)])
}

/// The voter set, or 2, 3 or 4. The Rust says only that it made none, so the reason is worked out
/// here and held against it.
fn voter_set(pairs: &[(u32, u64)]) -> Result<VoterSet<u32>, u32> {
    let sum: u128 = pairs.iter().map(|&(_, weight)| weight as u128).sum();
    let reason = match sum {
        0 => Some(3),
        _ if sum > u64::MAX as u128 => Some(2),
        _ => None,
    };
    match (VoterSet::new(pairs.iter().cloned()), reason) {
        (None, Some(reason)) => Err(reason),
        (Some(set), None) if set.len().get() > MOST_VOTERS => Err(4),
        (Some(set), None) => Ok(set),
        _ => panic!("the Rust and the driver differ on a voter list"),
    }
}

fn yes(b: bool) -> &'static str {
    if b {
        "yes"
    } else {
        "no"
    }
}

fn tell_block(name: &str, block: Option<&(u32, u32)>, out: &mut String) {
    let _ = match block {
        Some((id, number)) => writeln!(out, "{name} {id} {number}"),
        None => writeln!(out, "{name} none"),
    };
}

fn tell_answers(round: &Round<u32, u32, u32, u64>, out: &mut String) {
    let (total, need) = (round.voters().total_weight().get(), round.threshold().get());
    let _ = writeln!(out, "round {}", round.number());
    let phases = [("prevote", round.prevote_participation()), ("precommit", round.precommit_participation())];
    for (name, (weight, voters)) in phases {
        let _ = writeln!(out, "{name} {} of {total} need {need} voters {voters}", weight.0);
    }
    let state = round.state();
    tell_block("ghost", state.prevote_ghost.as_ref(), out);
    tell_block("estimate", state.estimate.as_ref(), out);
    tell_block("final", state.finalized.as_ref(), out);
    let _ = writeln!(out, "completable {}", yes(state.completable));
}

fn tell_finalizing(round: &mut Round<u32, u32, u32, u64>, table: &Table, out: &mut String) {
    let Some(list) = round.finalizing_precommits(table) else {
        out.push_str("finalizing none\n");
        return;
    };
    let list: Vec<_> = list.collect();
    let _ = writeln!(out, "finalizing {}", list.len());
    for signed in list {
        let Precommit { target_hash, target_number } = signed.precommit;
        let _ = writeln!(out, "Pc {} {target_hash} {target_number} {}", signed.id, signed.signature);
    }
}

/// Only the newest entry after each vote: the list only grows, and all of it is told at the end.
fn tell_history(round: &Round<u32, u32, u32, u64>, out: &mut String) {
    let history = round.historical_votes();
    let _ = write!(out, "history {}", history.seen().len());
    let indexes = [("prevoted", round.prevoted_index()), ("precommitted", round.precommitted_index())];
    for (name, index) in indexes {
        let _ = match index {
            Some(index) => write!(out, " {name} {index}"),
            None => write!(out, " {name} none"),
        };
    }
    out.push('\n');
}

fn tell_seen(round: &Round<u32, u32, u32, u64>, out: &mut String) {
    for signed in round.historical_votes().seen() {
        let mark = match signed.message {
            Message::Prevote(_) => "Pv",
            Message::Precommit(_) => "Pc",
            Message::PrimaryPropose(_) => "proposal",
        };
        let (target, number) = signed.target();
        let _ = writeln!(out, "seen {mark} {} {target} {number} {}", signed.id, signed.signature);
    }
}

/// Where a journal ends: its judge, the refusal if there is one, whole records before, bytes after.
struct End {
    judge: Judge,
    refused: Option<u32>,
    records: u64,
    tail: usize,
}

fn run(journal: &[u8], telling: Telling, raw: bool, out: &mut String) -> End {
    let mut judge = Judge::new(telling, raw);
    let mut rest = journal;
    let mut records = 0u64;
    let refused = loop {
        if rest.len() < 2 {
            break None;
        }
        let Some(whole) = length(&rest[..2]) else {
            break Some(17);
        };
        if rest.len() < whole {
            break None;
        }
        if let Err(number) = judge.take(&rest[..2], &rest[2..whole], out) {
            break Some(number);
        }
        records += 1;
        rest = &rest[whole..];
    };
    End { judge, refused, records, tail: rest.len() }
}

/// Replays one journal and appends its lines.
fn replay(journal: &[u8], telling: Telling, raw: bool, out: &mut String) {
    let end = run(journal, telling, raw, out);
    if let Some(number) = end.refused {
        let _ = writeln!(out, "refused {number} at {}", end.records + 1);
        return;
    }
    match &end.judge.round {
        None => out.push_str("no round\n"),
        Some(round) => {
            if let Telling::Trace(_) = telling {
                tell_seen(round, out);
            }
            tell_answers(round, out);
        }
    }
    let _ = writeln!(out, "tail {}", end.tail);
}

/// A panic of the Rust is an answer too, and must not end a run over many journals.
fn replay_or_panic(journal: &[u8], telling: Telling, raw: bool, out: &mut String) {
    out.clear();
    if catch_unwind(AssertUnwindSafe(|| replay(journal, telling, raw, out))).is_err() {
        out.clear();
        out.push_str("the Rust panicked\n");
    }
}

/// Framed journals in, framed answers out: u32 little-endian length, then the bytes.
fn pipe(telling: Telling, raw: bool) -> io::Result<()> {
    let mut input = io::BufReader::with_capacity(1 << 16, io::stdin().lock());
    let mut output = io::BufWriter::with_capacity(1 << 16, io::stdout().lock());
    let (mut size, mut journal, mut out) = ([0; 4], Vec::new(), String::new());
    loop {
        match input.read_exact(&mut size) {
            Err(e) if e.kind() == io::ErrorKind::UnexpectedEof => break,
            other => other?,
        }
        journal.resize(u32::from_le_bytes(size) as usize, 0);
        input.read_exact(&mut journal)?;
        replay_or_panic(&journal, telling, raw, &mut out);
        output.write_all(&(out.len() as u32).to_le_bytes())?;
        output.write_all(out.as_bytes())?;
    }
    output.flush()
}

/// Replays from memory, no line written: nanoseconds a vote record over the whole journal, of the
/// best run and in the mean.
fn bench(journal: &[u8], times: u32) -> io::Result<()> {
    let mut out = String::new();
    let first = run(journal, Telling::Last, false, &mut out);
    let votes = first.judge.votes;
    if votes == 0 || first.refused.is_some() {
        let wanted = "a journal with votes and no refusal is wanted";
        return Err(io::Error::new(io::ErrorKind::InvalidInput, wanted));
    }
    let (mut best, mut sum) = (f64::INFINITY, 0.0);
    for _ in 0..times {
        let start = Instant::now();
        let end = run(host::hint::black_box(journal), Telling::Last, false, &mut out);
        let took = start.elapsed().as_nanos() as f64;
        host::hint::black_box(&end);
        best = if took < best { took } else { best };
        sum += took;
    }
    let (best, mean) = (best / votes as f64, sum / times as f64 / votes as f64);
    writeln!(io::stdout(), "votes {votes} runs {times} best {best:.1} mean {mean:.1} ns a vote")
}

const USAGE: &str = "usage: oracle [--pipe] [--raw] [--answers | --trace | --trace-every N]
       oracle --bench N
       oracle --bit B
A journal on standard input, its replay lines on standard output.
--pipe         many journals: u32 little-endian length and bytes each, answers likewise
--answers      the replay lines without the tail after every vote record as well
--trace        all that the Rust can be asked, after every vote record
--trace-every  the same, with precommit_ghost asked after every N-th vote record only
--raw          first votes are not looked up: what the Rust does where 11 to 13 are due
--bench        replays one journal from memory N times, nanoseconds a vote record
--bit          the words of a bit set with bit B set\n";

fn number(word: Option<String>) -> u32 {
    let number = word.and_then(|w| w.parse().ok()).unwrap_or(0);
    if number == 0 {
        let _ = io::stderr().write_all(USAGE.as_bytes());
        exit(2);
    }
    number
}

/// The program.
pub fn main() {
    let (mut telling, mut piped, mut raw, mut runs) = (Telling::Last, false, false, None);
    let mut words = host::env::args().skip(1);
    while let Some(word) = words.next() {
        match word.as_str() {
            "--pipe" => piped = true,
            "--raw" => raw = true,
            "--answers" => telling = Telling::Answers,
            "--trace" => telling = Telling::Trace(1),
            "--trace-every" => telling = Telling::Trace(number(words.next())),
            "--bench" => runs = Some(number(words.next())),
            "--bit" => {
                let mut bits = Bitfield::new();
                bits.set_bit(words.next().and_then(|w| w.parse().ok()).unwrap_or(0));
                let _ = writeln!(io::stdout(), "{bits:?}");
                return;
            }
            _ => {
                let _ = io::stderr().write_all(USAGE.as_bytes());
                exit(2);
            }
        }
    }
    if piped {
        set_hook(host::boxed::Box::new(|_| ()));
    }
    let done = if piped {
        pipe(telling, raw)
    } else {
        let mut journal = Vec::new();
        io::stdin().read_to_end(&mut journal).and_then(|_| match runs {
            Some(runs) => bench(&journal, runs),
            None => {
                let mut out = String::new();
                replay_or_panic(&journal, telling, raw, &mut out);
                io::stdout().write_all(out.as_bytes())
            }
        })
    };
    if let Err(e) = done {
        let _ = writeln!(io::stderr(), "oracle: {e}");
        exit(1);
    }
}
