//! Document 01's definitions, worked out by brute force over the recorded votes, and demand 3.
//!
//! Nothing here comes from the Rust: no vote graph, no bits, no stored block. Every weight is a sum
//! over voters, every search a look at all blocks. The expected trace of a journal is written from
//! the definitions and held against the judge's. Above the fault weight F the definitions do not
//! say which GHOST is right; there the judge's own is taken, and the rest is worked out from it.

use std::fmt::Write;

/// Faults that can be planted in the definitions, to see that this check bites.
pub const FAULTS: [&str; 20] = [
    "threshold-two-thirds",
    "ghost-first-not-highest",
    "ghost-more-than-threshold",
    "equivocators-count-once-for-each-vote",
    "equivocators-only-where-they-voted",
    "heard-twice",
    "final-by-prevotes",
    "final-off-the-line",
    "estimate-ignores-equivocators-to-come",
    "estimate-early",
    "completable-any-estimate",
    "completable-early",
    "completable-only-children-with-votes-of-their-own",
    "demand-ghost-never-moves",
    "demand-final-never-moves",
    "demand-estimate-without-completable",
    "demand-estimate-above-fault-weight",
    "demand-completable-above-fault-weight",
    "one-line-above-fault-weight",
    "highest-above-fault-weight",
];

#[derive(Clone, Copy)]
struct Block {
    id: u32,
    number: u32,
    parent: Option<usize>,
}

/// A recorded vote: target, number, signature.
type Pair = (u32, u32, u64);

struct Round {
    number: u64,
    base: usize,
    /// By phase, then voter: the recorded pairs, at most two.
    votes: [Vec<Vec<Pair>>; 2],
    /// Mark, voter, pair.
    seen: Vec<(&'static str, u32, Pair)>,
    indexes: [Option<usize>; 2],
}

struct Desk<'a> {
    pairs: Vec<(u32, u64)>,
    voters: Vec<(u32, u64)>,
    blocks: Vec<Block>,
    round: Option<Round>,
    /// Phase weight of every block, by phase and place, of the votes so far.
    weights: [Vec<u128>; 2],
    fault: &'a str,
}

/// The four answers; blocks by place.
#[derive(Clone, Copy, PartialEq, Debug, Default)]
struct Answers {
    ghost: Option<usize>,
    estimate: Option<usize>,
    finalized: Option<usize>,
    completable: bool,
}

/// What was checked on the way.
#[derive(Default)]
pub struct Counts {
    pub journals: u64,
    pub votes: u64,
    /// Votes after which the equivocators of both phases weigh at most F.
    pub within: u64,
    pub with_ghost: u64,
    pub with_final: u64,
    pub with_completable: u64,
    /// Steps on which a clause of demand 3 was held against two states.
    pub ghost_moves: u64,
    pub final_moves: u64,
    pub estimate_moves: u64,
    pub refused: u64,
}

impl Counts {
    pub fn add(&mut self, o: &Counts) {
        self.journals += o.journals;
        self.votes += o.votes;
        self.within += o.within;
        self.with_ghost += o.with_ghost;
        self.with_final += o.with_final;
        self.with_completable += o.with_completable;
        self.ghost_moves += o.ghost_moves;
        self.final_moves += o.final_moves;
        self.estimate_moves += o.estimate_moves;
        self.refused += o.refused;
    }
}

const PREVOTE: usize = 0;
const PRECOMMIT: usize = 1;

impl Desk<'_> {
    fn total(&self) -> u128 {
        self.voters.iter().map(|v| v.1 as u128).sum()
    }
    fn fault_weight(&self) -> u128 {
        (self.total() - 1) / 3
    }
    fn need(&self) -> u128 {
        if self.fault == "threshold-two-thirds" {
            return (2 * self.total()).div_ceil(3);
        }
        self.total() - self.fault_weight()
    }
    fn block(&self, id: u32) -> Option<usize> {
        self.blocks.iter().position(|b| b.id == id)
    }
    /// Whether `at` is `above` or one of its descendants.
    fn at_or_below(&self, above: usize, at: usize) -> bool {
        let mut at = Some(at);
        while let Some(here) = at {
            if here == above {
                return true;
            }
            at = self.blocks[here].parent;
        }
        false
    }
    fn votes(&self, phase: usize) -> &Vec<Vec<Pair>> {
        &self.round.as_ref().unwrap().votes[phase]
    }
    fn sum(&self, phase: usize, test: impl Fn(&[Pair]) -> bool) -> u128 {
        let votes = self.votes(phase).iter().zip(&self.voters);
        votes.filter(|(pairs, _)| test(pairs)).map(|(_, voter)| voter.1 as u128).sum()
    }
    fn heard(&self, phase: usize) -> u128 {
        let once = self.sum(phase, |pairs| !pairs.is_empty());
        let twice = if self.fault == "heard-twice" { self.equivocators(phase) } else { 0 };
        once + twice
    }
    fn voters_heard(&self, phase: usize) -> usize {
        self.votes(phase).iter().filter(|pairs| !pairs.is_empty()).count()
    }
    fn equivocators(&self, phase: usize) -> u128 {
        self.sum(phase, |pairs| pairs.len() == 2)
    }
    /// A voter counts for a block if it equivocated, or if the block is its target or above it.
    fn weigh(&self, phase: usize) -> Vec<u128> {
        let mut out = vec![0; self.blocks.len()];
        for (pairs, voter) in self.votes(phase).iter().zip(&self.voters) {
            let Some(first) = pairs.first() else { continue };
            let mut counts = vec![false; self.blocks.len()];
            let mut at = self.block(first.0);
            while let Some(here) = at {
                counts[here] = true;
                at = self.blocks[here].parent;
            }
            let equivocated = pairs.len() == 2;
            for (block, sum) in out.iter_mut().enumerate() {
                let times = match self.fault {
                    "equivocators-count-once-for-each-vote" => counts[block] as u128 + equivocated as u128,
                    "equivocators-only-where-they-voted" => counts[block] as u128,
                    _ => (counts[block] || equivocated) as u128,
                };
                *sum += times * voter.1 as u128;
            }
        }
        out
    }
    fn weight(&self, phase: usize, block: usize) -> u128 {
        self.weights[phase][block]
    }
    /// From a block towards the base, both included.
    fn line(&self, from: usize) -> Vec<usize> {
        let base = self.round.as_ref().unwrap().base;
        let mut line = vec![from];
        while *line.last().unwrap() != base {
            match self.blocks[*line.last().unwrap()].parent {
                Some(parent) => line.push(parent),
                None => break,
            }
        }
        line
    }

    /// The GHOST of a phase while its equivocators weigh at most F; the error says that the blocks of
    /// weight T do not lie on one line.
    fn ghost(&self, phase: usize) -> Result<Option<usize>, String> {
        let need = self.need();
        if self.heard(phase) < need {
            return Ok(None);
        }
        let enough = |b: &usize| match self.fault {
            "ghost-more-than-threshold" => self.weight(phase, *b) > need,
            _ => self.weight(phase, *b) >= need,
        };
        let mut heavy: Vec<usize> = (0..self.blocks.len()).filter(enough).collect();
        heavy.sort_by_key(|&b| self.blocks[b].number);
        for pair in heavy.windows(2) {
            if !self.at_or_below(pair[0], pair[1]) {
                return Err(format!(
                    "blocks {} and {} both have weight T",
                    self.blocks[pair[0]].id, self.blocks[pair[1]].id
                ));
            }
        }
        if self.fault == "ghost-first-not-highest" {
            let base = self.round.as_ref().unwrap().base;
            heavy.retain(|&b| self.at_or_below(base, b));
            return Ok(heavy.first().copied());
        }
        Ok(heavy.last().copied())
    }

    fn possible(&self, block: usize) -> bool {
        let (total, need) = (self.total(), self.need());
        let heard = self.heard(PRECOMMIT);
        let weight = self.weight(PRECOMMIT, block);
        let to_come = self.fault_weight().saturating_sub(self.equivocators(PRECOMMIT));
        let turned = match self.fault {
            "estimate-ignores-equivocators-to-come" => 0,
            _ => heard.saturating_sub(weight).min(to_come),
        };
        weight + total.saturating_sub(heard) + turned >= need
    }

    /// Whether a vote-node lies at or below a block: the base and the targets of first votes are such.
    fn voted_below(&self, block: usize) -> bool {
        let round = self.round.as_ref().unwrap();
        if self.at_or_below(block, round.base) {
            return true;
        }
        let firsts = round.votes.iter().flatten().filter_map(|pairs| pairs.first());
        let mut targets = firsts.map(|first| self.block(first.0).unwrap());
        if self.fault == "completable-only-children-with-votes-of-their-own" {
            return targets.any(|t| t == block);
        }
        targets.any(|t| self.at_or_below(block, t))
    }

    fn answers(&self, ghost: Option<usize>) -> Result<Answers, String> {
        let Some(g) = ghost else { return Ok(Answers::default()) };
        let (need, heard) = (self.need(), self.heard(PRECOMMIT));
        let mut out = Answers { ghost, ..Answers::default() };
        let line = self.line(g);
        if heard >= need {
            let phase = if self.fault == "final-by-prevotes" { PREVOTE } else { PRECOMMIT };
            out.finalized = line.iter().copied().find(|&b| self.weight(phase, b) >= need);
            if self.fault == "final-off-the-line" {
                let all = (0..self.blocks.len()).filter(|&b| self.weight(PRECOMMIT, b) >= need);
                out.finalized = all.max_by_key(|&b| self.blocks[b].number);
            }
        }
        if heard < need && self.fault != "estimate-early" {
            out.estimate = ghost;
        } else {
            out.estimate = line.iter().copied().find(|&b| self.possible(b));
        }
        let children = (0..self.blocks.len()).filter(|&b| self.blocks[b].parent == Some(g));
        let possible: Vec<usize> = children.filter(|&b| self.possible(b)).collect();
        let none_possible = !possible.iter().any(|&b| self.voted_below(b));
        let moved = out.estimate != ghost;
        out.completable = match self.fault {
            "completable-any-estimate" => heard >= need && moved,
            "completable-early" => moved || none_possible,
            _ => heard >= need && (moved || none_possible),
        };
        // The paper speaks of any child. With C at T and E at most F it makes no difference.
        let agree = possible.is_empty() == none_possible;
        if heard >= need && self.equivocators(PRECOMMIT) <= self.fault_weight() && !agree && self.fault.is_empty() {
            return Err("any child and children with a vote-node at or below them differ".into());
        }
        Ok(out)
    }

    fn tell_block(&self, name: &str, block: Option<usize>, out: &mut String) {
        let _ = match block {
            Some(b) => writeln!(out, "{name} {} {}", self.blocks[b].id, self.blocks[b].number),
            None => writeln!(out, "{name} none"),
        };
    }

    fn tell_answers(&self, answers: &Answers, out: &mut String) {
        let round = self.round.as_ref().unwrap();
        let (total, need) = (self.total(), self.need());
        let _ = writeln!(out, "round {}", round.number);
        for (phase, name) in ["prevote", "precommit"].into_iter().enumerate() {
            let (heard, voters) = (self.heard(phase), self.voters_heard(phase));
            let _ = writeln!(out, "{name} {heard} of {total} need {need} voters {voters}");
        }
        self.tell_block("ghost", answers.ghost, out);
        self.tell_block("estimate", answers.estimate, out);
        self.tell_block("final", answers.finalized, out);
        let _ = writeln!(out, "completable {}", if answers.completable { "yes" } else { "no" });
    }

    /// By rising voter, single precommits at or below the finalized block, both of an equivocator.
    fn tell_finalizing(&self, finalized: Option<usize>, out: &mut String) {
        let Some(finalized) = finalized else {
            out.push_str("finalizing none\n");
            return;
        };
        let mut list = String::new();
        let mut count = 0;
        for (pairs, voter) in self.votes(PRECOMMIT).iter().zip(&self.voters) {
            let single = pairs.len() == 1;
            if single && !self.at_or_below(finalized, self.block(pairs[0].0).unwrap()) {
                continue;
            }
            for pair in pairs {
                count += 1;
                let _ = writeln!(list, "Pc {} {} {} {}", voter.0, pair.0, pair.1, pair.2);
            }
        }
        let _ = writeln!(out, "finalizing {count}\n{list}");
        out.pop();
    }
}

/// The judge's answer on a line such as `ghost 12 2`.
fn told<'t>(trace: &'t str, name: &str) -> Option<&'t str> {
    trace.lines().find_map(|line| line.strip_prefix(name)?.strip_prefix(' '))
}

/// Holds the judge's trace of a journal against the definitions and demand 3.
pub fn check(journal: &[u8], trace: &str, fault: &str, counts: &mut Counts) -> Result<(), String> {
    counts.journals += 1;
    let mut desk = Desk {
        pairs: Vec::new(),
        voters: Vec::new(),
        blocks: Vec::new(),
        round: None,
        weights: [Vec::new(), Vec::new()],
        fault,
    };
    let mut left = trace;
    let mut before = Answers::default();
    let mut votes = 0u64;
    let mut rest = journal;
    let mut k = 0u64;
    let number4 = |b: &[u8], at: usize| u32::from_le_bytes(b[at..at + 4].try_into().unwrap());
    let number8 = |b: &[u8], at: usize| u64::from_le_bytes(b[at..at + 8].try_into().unwrap());

    let refusal = 'refused: {
        loop {
            if rest.len() < 2 {
                break 'refused None;
            }
            let size = match &rest[..2] {
                b"Vt" | b"Op" => 14,
                b"Rt" | b"Bk" => 10,
                b"Pv" | b"Pc" => 22,
                _ => break 'refused Some(17),
            };
            if rest.len() < size {
                break 'refused None;
            }
            let (mark, fields) = (&rest[..2], &rest[2..size]);
            let (rooted, opened) = (!desk.blocks.is_empty(), desk.round.is_some());
            let turn = match mark {
                b"Vt" | b"Rt" => !rooted,
                b"Bk" => rooted,
                b"Op" => rooted && !opened,
                _ => opened,
            };
            if !turn {
                break 'refused Some(18);
            }
            match mark {
                b"Vt" => {
                    if desk.pairs.len() == 256 {
                        break 'refused Some(1);
                    }
                    desk.pairs.push((number4(fields, 0), number8(fields, 4)));
                }
                b"Rt" => {
                    let sum: u128 = desk.pairs.iter().map(|p| p.1 as u128).sum();
                    if sum > u64::MAX as u128 {
                        break 'refused Some(2);
                    }
                    let mut ids: Vec<u32> = desk.pairs.iter().filter(|p| p.1 > 0).map(|p| p.0).collect();
                    ids.sort();
                    ids.dedup();
                    if ids.is_empty() {
                        break 'refused Some(3);
                    }
                    if ids.len() > 64 {
                        break 'refused Some(4);
                    }
                    desk.voters = ids
                        .iter()
                        .map(|&id| (id, desk.pairs.iter().filter(|p| p.0 == id).map(|p| p.1).sum()))
                        .collect();
                    desk.blocks.push(Block { id: number4(fields, 0), number: number4(fields, 4), parent: None });
                }
                b"Bk" => {
                    let id = number4(fields, 0);
                    if desk.block(id).is_some() {
                        break 'refused Some(5);
                    }
                    let Some(parent) = desk.block(number4(fields, 4)) else { break 'refused Some(6) };
                    let above = desk.blocks[parent].number;
                    if above == u32::MAX {
                        break 'refused Some(7);
                    }
                    if desk.blocks.len() == 256 {
                        break 'refused Some(8);
                    }
                    desk.blocks.push(Block { id, number: above + 1, parent: Some(parent) });
                }
                b"Op" => {
                    let Some(base) = desk.block(number4(fields, 8)) else { break 'refused Some(10) };
                    let silent = vec![Vec::new(); desk.voters.len()];
                    desk.round = Some(Round {
                        number: number8(fields, 0),
                        base,
                        votes: [silent.clone(), silent],
                        seen: Vec::new(),
                        indexes: [None, None],
                    });
                    let round = desk.round.as_ref().unwrap();
                    let primary = desk.voters[(round.number % desk.voters.len() as u64) as usize].0;
                    let expected = format!(
                        "open {} base {} {} total {} need {} voters {} primary {primary}\n",
                        round.number,
                        desk.blocks[base].id,
                        desk.blocks[base].number,
                        desk.total(),
                        desk.need(),
                        desk.voters.len(),
                    );
                    left = same(left, &expected, k + 1)?;
                }
                _ => {
                    let phase = if mark == b"Pv" { PREVOTE } else { PRECOMMIT };
                    let id = number4(fields, 0);
                    let pair = (number4(fields, 4), number4(fields, 8), number8(fields, 12));
                    let place = desk.voters.iter().position(|v| v.0 == id);
                    let recorded = match place {
                        Some(p) => desk.votes(phase)[p].clone(),
                        None => Vec::new(),
                    };
                    if place.is_some() && recorded.is_empty() {
                        let Some(target) = desk.block(pair.0) else { break 'refused Some(11) };
                        if desk.blocks[target].number != pair.1 {
                            break 'refused Some(12);
                        }
                        if !desk.at_or_below(desk.round.as_ref().unwrap().base, target) {
                            break 'refused Some(13);
                        }
                    }
                    votes += 1;
                    let duplicated = recorded.contains(&pair);
                    let taken = place.is_some() && !duplicated && recorded.len() < 2;
                    let mut expected = format!(
                        "vote {votes} valid {} duplicated {}\nequivocation ",
                        if place.is_some() { "yes" } else { "no" },
                        if duplicated { "yes" } else { "no" },
                    );
                    let round = desk.round.as_mut().unwrap();
                    match (taken, recorded.first()) {
                        (true, Some(a)) => {
                            let b = pair;
                            let _ = writeln!(
                                expected,
                                "{} {id} first {} {} {} second {} {} {}",
                                round.number, a.0, a.1, a.2, b.0, b.1, b.2
                            );
                        }
                        _ => expected.push_str("none\n"),
                    }
                    if taken {
                        round.votes[phase][place.unwrap()].push(pair);
                        round.seen.push((["Pv", "Pc"][phase], id, pair));
                        if place == Some(0) {
                            round.indexes[phase] = Some(round.seen.len());
                        }
                    }

                    desk.weights = [desk.weigh(PREVOTE), desk.weigh(PRECOMMIT)];
                    let fault_weight = desk.fault_weight();
                    let calm = [PREVOTE, PRECOMMIT].map(|p| desk.equivocators(p) <= fault_weight);
                    let judges_block = |name: &str| -> Option<usize> {
                        let id = told(left, name)?.split(' ').next()?.parse().ok()?;
                        desk.block(id)
                    };
                    let ghost = match calm[PREVOTE] || fault == "one-line-above-fault-weight" {
                        true => desk.ghost(PREVOTE)?,
                        false => judges_block("ghost"),
                    };
                    if let ("highest-above-fault-weight", Some(g)) = (fault, ghost) {
                        let heavy = (0..desk.blocks.len()).filter(|&b| desk.weight(PREVOTE, b) >= desk.need());
                        let highest = heavy.map(|b| desk.blocks[b].number).max().unwrap_or(0);
                        if highest != desk.blocks[g].number {
                            return Err(format!("record {}: a block with number {highest} has weight T", k + 1));
                        }
                    }
                    let mut answers = desk.answers(ghost)?;
                    desk.tell_answers(&answers, &mut expected);
                    let own = match calm[PRECOMMIT] {
                        true => desk.ghost(PRECOMMIT)?,
                        false => judges_block("precommit_ghost"),
                    };
                    desk.tell_block("precommit_ghost", own, &mut expected);
                    desk.tell_finalizing(answers.finalized, &mut expected);
                    let round = desk.round.as_ref().unwrap();
                    let _ = write!(expected, "history {}", round.seen.len());
                    for (name, index) in ["prevoted", "precommitted"].into_iter().zip(round.indexes) {
                        let _ = match index {
                            Some(index) => write!(expected, " {name} {index}"),
                            None => write!(expected, " {name} none"),
                        };
                    }
                    expected.push('\n');
                    left = same(left, &expected, k + 1)?;

                    answers.ghost = ghost;
                    demand_3(&desk, &before, &answers, calm[PRECOMMIT], counts)
                        .map_err(|e| format!("record {}: {e}", k + 1))?;
                    counts.votes += 1;
                    if calm == [true, true] {
                        counts.within += 1;
                        counts.with_ghost += answers.ghost.is_some() as u64;
                        counts.with_final += answers.finalized.is_some() as u64;
                        counts.with_completable += answers.completable as u64;
                    }
                    before = answers;
                }
            }
            k += 1;
            rest = &rest[size..];
        }
    };

    let mut expected = String::new();
    match (refusal, &desk.round) {
        (Some(number), _) => {
            counts.refused += 1;
            let _ = writeln!(expected, "refused {number} at {}", k + 1);
        }
        (None, None) => {
            let _ = writeln!(expected, "no round\ntail {}", rest.len());
        }
        (None, Some(round)) => {
            for (mark, id, pair) in &round.seen {
                let _ = writeln!(expected, "seen {mark} {id} {} {} {}", pair.0, pair.1, pair.2);
            }
            desk.tell_answers(&before, &mut expected);
            let _ = writeln!(expected, "tail {}", rest.len());
        }
    }
    left = same(left, &expected, k + 1)?;
    if left.is_empty() {
        Ok(())
    } else {
        Err(format!("the judge says more: {left}"))
    }
}

fn same<'t>(trace: &'t str, expected: &str, k: u64) -> Result<&'t str, String> {
    trace.strip_prefix(expected).ok_or_else(|| {
        let got: String = trace.lines().take(expected.lines().count()).map(|l| format!("{l}\n")).collect();
        format!("record {k}\nby the definitions:\n{expected}by the judge:\n{got}")
    })
}

/// What was told is not taken back.
fn demand_3(desk: &Desk, before: &Answers, after: &Answers, calm: bool, counts: &mut Counts) -> Result<(), String> {
    let fault = desk.fault;
    let name = |b: Option<usize>| b.map_or("none".to_string(), |b| desk.blocks[b].id.to_string());
    let moved_down = |old: Option<usize>, new: Option<usize>| match (old, new) {
        (None, _) => true,
        (Some(old), Some(new)) => desk.at_or_below(old, new),
        (Some(_), None) => false,
    };
    let pairs = [
        ("GHOST", before.ghost, after.ghost, "demand-ghost-never-moves"),
        ("finalized block", before.finalized, after.finalized, "demand-final-never-moves"),
    ];
    for (what, old, new, still) in pairs {
        if !moved_down(old, new) || (fault == still && old.is_some() && old != new) {
            return Err(format!("the {what} went from {} to {}", name(old), name(new)));
        }
    }
    counts.ghost_moves += (before.ghost.is_some() && before.ghost != after.ghost) as u64;
    counts.final_moves += (before.finalized.is_some() && before.finalized != after.finalized) as u64;
    if before.completable {
        if (calm || fault == "demand-completable-above-fault-weight") && !after.completable {
            return Err("a completable round is not completable any more".into());
        }
        counts.estimate_moves += (before.estimate != after.estimate) as u64;
    }
    if before.completable || (fault == "demand-estimate-without-completable" && before.estimate.is_some()) {
        let up = match (before.estimate, after.estimate) {
            (Some(old), Some(new)) => desk.at_or_below(new, old),
            _ => false,
        };
        if (calm || fault == "demand-estimate-above-fault-weight") && !up {
            return Err(format!("the estimate went from {} to {}", name(before.estimate), name(after.estimate)));
        }
    }
    match (after.finalized, after.estimate) {
        (None, _) => Ok(()),
        (Some(f), Some(e)) if desk.at_or_below(f, e) => Ok(()),
        (f, e) => Err(format!("the estimate {} is not at or below the finalized block {}", name(e), name(f))),
    }
}
