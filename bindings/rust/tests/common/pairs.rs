//! Pairs of journals of one round, made from a seed, and the two-view sum of two journals worked out from their bytes alone.
use super::{block, open, records, root, voter, word};
use std::collections::HashMap;

/// Numbers by splitmix64, the same on every machine.
pub struct Dice(pub u64);

impl Dice {
    fn next(&mut self) -> u64 {
        self.0 = self.0.wrapping_add(0x9e3779b97f4a7c15);
        let mut z = self.0;
        z = (z ^ (z >> 30)).wrapping_mul(0xbf58476d1ce4e5b9);
        z = (z ^ (z >> 27)).wrapping_mul(0x94d049bb133111eb);
        z ^ (z >> 31)
    }

    fn below(&mut self, end: usize) -> usize {
        (self.next() % end as u64) as usize
    }

    fn chance(&mut self, percent: usize) -> bool {
        self.below(100) < percent
    }

    fn shuffle<T>(&mut self, list: &mut [T]) {
        for end in (1..list.len()).rev() {
            list.swap(end, self.below(end + 1));
        }
    }
}

/// What the two views share: voters, blocks by place with their parents' places and numbers, round and base.
struct Round {
    voters: Vec<(u32, u64)>,
    parents: Vec<usize>,
    numbers: Vec<u32>,
    /// So many blocks stand before the Op; the others come between votes.
    early: usize,
    number: u64,
    base: usize,
    /// How often a voter votes twice in a phase of a view, of a hundred.
    liars: usize,
}

impl Round {
    fn new(dice: &mut Dice) -> Round {
        let count = if dice.chance(3) { 64 } else { 1 + dice.below(7) };
        let heavy = dice.chance(5);
        let weight = |dice: &mut Dice| if heavy { u64::MAX / 64 } else { 1 + dice.below(4) as u64 };
        let voters = (0..count).map(|k| (1 + 3 * k as u32, weight(dice))).collect();
        let (mut parents, mut numbers) = (vec![0], vec![dice.below(1000) as u32]);
        for place in 1..2 + dice.below(7) {
            // Often under the root or its children, so that there are forks.
            let parent = dice.below(place.min(4));
            parents.push(parent);
            numbers.push(numbers[parent] + 1);
        }
        let early = if dice.chance(70) { parents.len() } else { 1 + dice.below(parents.len()) };
        let base = if dice.chance(70) { 0 } else { dice.below(early) };
        let liars = [0, 10, 40, 75][dice.below(4)];
        Round { voters, parents, numbers, early, number: dice.below(1000) as u64, base, liars }
    }

    fn id(&self, place: usize) -> u32 {
        100 + (37 * place as u32) % 64
    }

    fn block(&self, place: usize) -> Vec<u8> {
        block(self.id(place), self.id(self.parents[place]))
    }

    fn opening(&self) -> Vec<u8> {
        let mut journal = Vec::new();
        for (k, (id, weight)) in self.voters.iter().enumerate() {
            // Some of the weights in two parts, which are summed, and some ids of no weight, which are no voters.
            let part = if k % 3 == 1 { weight / 2 } else { 0 };
            journal.extend(voter(*id, weight - part));
            journal.extend(if part == 0 { voter(1000 + id, 0) } else { voter(*id, part) });
        }
        journal.extend(root(self.id(0), self.numbers[0]));
        journal.extend((1..self.early).flat_map(|place| self.block(place)));
        journal.extend(open(self.number, self.id(self.base)));
        journal
    }

    fn is_at_or_below(&self, upper: usize, mut place: usize) -> bool {
        while upper < place {
            place = self.parents[place];
        }
        upper == place
    }

    fn vote(&self, mark: &[u8], voter: u32, place: usize, signature: u64) -> Vec<u8> {
        super::vote(mark, voter, self.id(place), self.numbers[place], signature)
    }

    /// A first vote, for the wanted block or any other that stands at or below the base among so many.
    fn target(&self, dice: &mut Dice, wanted: usize, known: usize) -> usize {
        if wanted < known && dice.chance(85) {
            return wanted;
        }
        let all: Vec<usize> = (0..known).filter(|place| self.is_at_or_below(self.base, *place)).collect();
        all[dice.below(all.len())]
    }

    /// A second pair: the same target by another signature, another target, or one that nobody has heard of.
    fn second(&self, dice: &mut Dice, mark: &[u8], voter: u32, first: usize) -> Vec<u8> {
        match dice.below(3) {
            0 => self.vote(mark, voter, first, 8),
            1 => self.vote(mark, voter, dice.below(self.parents.len()), 9),
            _ => super::vote(mark, voter, 7777, 1, 0),
        }
    }

    /// One view. Most of its voters want one block.
    fn view(&self, dice: &mut Dice) -> Vec<u8> {
        let mut journal = self.opening();
        let mut known = self.early;
        let wanted = self.target(dice, usize::MAX, self.parents.len());
        let mut turns: Vec<(&[u8], u32)> = Vec::new();
        for mark in [b"Pv", b"Pc"] {
            let mut phase: Vec<(&[u8], u32)> = self.voters.iter().map(|(id, _)| (&mark[..], *id)).collect();
            dice.shuffle(&mut phase);
            turns.extend(phase);
        }
        if dice.chance(20) {
            dice.shuffle(&mut turns);
        }
        for (mark, voter) in turns {
            while known < self.parents.len() && dice.chance(40) {
                journal.extend(self.block(known));
                known += 1;
            }
            if dice.chance(10) {
                continue;
            }
            let first = self.target(dice, wanted, known);
            let record = self.vote(mark, voter, first, dice.below(2) as u64);
            journal.extend(&record);
            if dice.chance(self.liars) {
                journal.extend(self.second(dice, mark, voter, first));
            }
            match dice.below(40) {
                0 => journal.extend(&record),
                1 => journal.extend(self.vote(mark, 5000, first, 0)),
                2 if self.liars > 0 => {
                    // A second and a third.
                    journal.extend(self.second(dice, mark, voter, first));
                    journal.extend(self.vote(mark, voter, first, 10));
                }
                _ => {}
            }
        }
        journal.extend((known..self.parents.len()).flat_map(|place| self.block(place)));
        if dice.chance(5) {
            journal.extend(&b"Pc\0\0"[..dice.below(4)]);
        }
        journal
    }
}

/// Two views of one round.
pub fn pair(dice: &mut Dice) -> (Vec<u8>, Vec<u8>) {
    let round = Round::new(dice);
    (round.view(dice), round.view(dice))
}

/// The weights of the voters by id.
fn weights(journal: &[u8]) -> HashMap<u32, u64> {
    let mut found = HashMap::new();
    for record in records(journal).0.iter().filter(|record| record.starts_with(b"Vt")) {
        *found.entry(word(record, 2)).or_default() += u64::from_le_bytes(record[6..14].try_into().unwrap());
    }
    found
}

/// A voter's recorded precommits, at most two: target, number and signature as they stand in the record.
fn precommits(journal: &[u8]) -> HashMap<u32, Vec<&[u8]>> {
    let mut found: HashMap<u32, Vec<&[u8]>> = HashMap::new();
    for record in records(journal).0.iter().filter(|record| record.starts_with(b"Pc")) {
        let pairs = found.entry(word(record, 2)).or_default();
        if pairs.len() < 2 && !pairs.contains(&&record[6..]) {
            pairs.push(&record[6..]);
        }
    }
    found
}

/// What two journals of one round tell of their precommits.
#[derive(Debug)]
pub struct Sums {
    pub total: u64,
    /// Document 02, R-2: who equivocated in either view, or voted in both for targets that differ in id.
    pub sum: u64,
    /// Document 01's sum, which R-2 took the place of: whose first targets differ in id.
    pub first_targets: u64,
    /// The equivocators of each.
    pub equivocators: [u64; 2],
}

impl Sums {
    /// Document 01, "Weights and bits".
    pub fn fault(&self) -> u64 {
        (self.total - 1) / 3
    }
}

pub fn sums(one: &[u8], other: &[u8]) -> Sums {
    let (here, there) = (precommits(one), precommits(other));
    let mut found = Sums { total: 0, sum: 0, first_targets: 0, equivocators: [0, 0] };
    for (voter, weight) in weights(one) {
        let none = Vec::new();
        let (a, b) = (here.get(&voter).unwrap_or(&none), there.get(&voter).unwrap_or(&none));
        let apart = !a.is_empty() && !b.is_empty() && a[0][..4] != b[0][..4];
        let twice = [a.len() == 2, b.len() == 2];
        found.total += weight;
        found.first_targets += if apart { weight } else { 0 };
        found.sum += if apart || twice[0] || twice[1] { weight } else { 0 };
        for (sum, twice) in found.equivocators.iter_mut().zip(twice) {
            *sum += if twice { weight } else { 0 };
        }
    }
    found
}
