//! Journals made from a seed: one class for each kind of trouble, and tiny cases one by one.

use crate::journal::{bytes, Record, Record::*};

/// splitmix64: the same journals on every machine and with every compiler.
pub struct Rng(pub u64);

impl Rng {
    pub fn next(&mut self) -> u64 {
        self.0 = self.0.wrapping_add(0x9E37_79B9_7F4A_7C15);
        let mut z = self.0;
        z = (z ^ (z >> 30)).wrapping_mul(0xBF58_476D_1CE4_E5B9);
        z = (z ^ (z >> 27)).wrapping_mul(0x94D0_49BB_1331_11EB);
        z ^ (z >> 31)
    }
    pub fn below(&mut self, n: usize) -> usize {
        (self.next() % n as u64) as usize
    }
    /// From `a` to `b`, both included.
    pub fn from_to(&mut self, a: usize, b: usize) -> usize {
        a + self.below(b - a + 1)
    }
    pub fn percent(&mut self, n: usize) -> bool {
        self.below(100) < n
    }
    pub fn pick<T: Clone>(&mut self, from: &[T]) -> T {
        from[self.below(from.len())].clone()
    }
    pub fn shuffle<T>(&mut self, list: &mut [T]) {
        for i in (1..list.len()).rev() {
            list.swap(i, self.below(i + 1));
        }
    }
}

pub const CLASSES: [&str; 19] = [
    "plain", "below", "above", "over", "siblings", "forks", "refused", "cut", "marks", "full", "heavy", "growing",
    "bases", "noise", "lists", "numbers", "spread", "damaged", "bytes",
];

/// Taken only where it is asked for by name: megabytes a journal.
pub const LONG: &str = "long";

/// Journal number `index` of a class. Every journal has a seed of its own, so one can be made again
/// without those before it.
pub fn journal(class: &str, seed: u64, index: u64) -> Vec<u8> {
    let salt = class.bytes().fold(seed, |h, b| (h ^ b as u64).wrapping_mul(0x100_0000_01B3));
    let mut rng = Rng(salt);
    rng.0 = rng.next() ^ index.wrapping_mul(0xD134_2543_DE82_EF95);
    rng.next();
    let rng = &mut rng;
    match class {
        "refused" => refused(rng),
        "cut" => {
            let class = rng.pick(&["plain", "above", "growing", "noise", "lists"]);
            let mut whole = bytes(&story(class, rng));
            let at = match rng.below(3) {
                // Near the end, where there is a state to tell.
                0 => whole.len() - rng.below(whole.len().min(40)),
                _ => rng.below(whole.len() + 1),
            };
            whole.truncate(at);
            if rng.percent(15) {
                whole.push(rng.next() as u8);
            }
            whole
        }
        "marks" => marks(rng),
        "long" => long(rng),
        "damaged" => {
            let class = rng.pick(&["plain", "above", "growing", "noise", "numbers"]);
            let mut whole = bytes(&story(class, rng));
            for _ in 0..rng.from_to(1, 3) {
                let at = rng.below(whole.len());
                match rng.below(4) {
                    0 => whole[at] ^= 1 << rng.below(8),
                    1 => whole[at] = rng.next() as u8,
                    2 => {
                        whole.remove(at);
                    }
                    _ => whole.insert(at, rng.next() as u8),
                }
            }
            whole
        }
        "bytes" => {
            let marks: [&[u8]; 6] = [b"Vt", b"Rt", b"Bk", b"Op", b"Pv", b"Pc"];
            let mut out = Vec::new();
            for _ in 0..rng.below(6) {
                if rng.percent(70) {
                    out.extend(rng.pick(&marks));
                }
                for _ in 0..rng.below(24) {
                    out.push(if rng.percent(50) { 0 } else { rng.next() as u8 });
                }
            }
            out
        }
        _ => bytes(&story(class, rng)),
    }
}

#[derive(Clone, Copy)]
struct Block {
    id: u32,
    number: u32,
    parent: usize,
}

/// What a journal is made of before it is written down.
struct World {
    /// Effective voters, by rising id: id and weight.
    voters: Vec<(u32, u64)>,
    pairs: Vec<(u32, u64)>,
    blocks: Vec<Block>,
    base: usize,
    round: u64,
}

impl World {
    fn total(&self) -> u64 {
        self.voters.iter().map(|v| v.1).sum()
    }
    fn fault(&self) -> u64 {
        (self.total() - 1) / 3
    }
    fn under(&self, above: usize, mut at: usize) -> bool {
        while at > above {
            at = self.blocks[at].parent;
        }
        at == above
    }
    fn under_base(&self) -> Vec<usize> {
        (0..self.blocks.len()).filter(|&b| self.under(self.base, b)).collect()
    }
    fn head(&self, blocks: usize) -> Vec<Record> {
        let mut out: Vec<Record> = self.pairs.iter().map(|&(id, w)| Vt(id, w)).collect();
        out.push(Rt(self.blocks[0].id, self.blocks[0].number));
        out.extend((1..blocks).map(|at| self.block(at)));
        out.push(Op(self.round, self.blocks[self.base].id));
        out
    }
    fn block(&self, at: usize) -> Record {
        Bk(self.blocks[at].id, self.blocks[self.blocks[at].parent].id)
    }
}

fn ids(rng: &mut Rng, n: usize) -> Vec<u32> {
    let mut ids: Vec<u32> = match rng.below(5) {
        0 | 1 => (0..n as u32).map(|i| 10 + i).collect(),
        2 => (0..n as u32).map(|i| 7 * i).collect(),
        _ => {
            let mut ids = vec![0, u32::MAX, 1, 1 << 31];
            ids.truncate(rng.below(3).min(n));
            while ids.len() < n {
                let id = rng.next() as u32;
                if !ids.contains(&id) {
                    ids.push(id);
                }
            }
            ids
        }
    };
    match rng.below(4) {
        0 => {}
        1 => ids.reverse(),
        _ => rng.shuffle(&mut ids),
    }
    ids
}

/// Parents by place, in one of the shapes that give the vote graph something to do.
fn parents(rng: &mut Rng, n: usize, shapes: &[usize]) -> Vec<usize> {
    let shape = rng.pick(shapes);
    let fork = rng.below(n);
    let stride = rng.from_to(2, 4);
    (0..n)
        .map(|at| match (at, shape) {
            (0, _) => 0,
            (_, 0) => rng.below(at),
            // A line.
            (_, 1) => at - 1,
            // Mostly a line with twigs.
            (_, 2) if rng.percent(70) => at - 1,
            (_, 2) => rng.below(at),
            // Several lines side by side under one block.
            (_, 3) if at <= fork => at - 1,
            (_, 3) if at <= fork + stride => fork,
            (_, 3) => at - stride,
            // Many children of few blocks.
            (_, 4) => rng.below(at.min(3)),
            // A bush of a given width.
            (_, 5) => (at - 1) / stride,
            // New blocks near the newest.
            _ => at - 1 - rng.below(at.min(4)),
        })
        .collect()
}

fn tree(rng: &mut Rng, n: usize, root_number: u32, shapes: &[usize]) -> Vec<Block> {
    let ids = ids(rng, n);
    let parents = parents(rng, n, shapes);
    let mut blocks: Vec<Block> = Vec::with_capacity(n);
    for at in 0..n {
        let number = if at == 0 { root_number } else { blocks[parents[at]].number.saturating_add(1) };
        blocks.push(Block { id: ids[at], number, parent: parents[at] });
    }
    blocks
}

fn weights(rng: &mut Rng, n: usize, heavy: bool) -> Vec<u64> {
    if heavy {
        // A total at or just under the largest u64.
        let mut left = u64::MAX - if rng.percent(50) { 0 } else { rng.below(6) as u64 };
        let equal = rng.percent(50);
        return (0..n)
            .map(|i| {
                let rest = (n - i) as u64;
                let most = left - (rest - 1);
                let w = match (rest, equal) {
                    (1, _) => left,
                    (_, true) => left / rest,
                    _ => 1 + rng.next() % most,
                };
                left -= w;
                w
            })
            .collect();
    }
    match rng.below(4) {
        0 | 1 => vec![1; n],
        2 => (0..n).map(|_| rng.from_to(1, 5) as u64).collect(),
        _ => (0..n).map(|_| rng.from_to(1, 3) as u64 * if rng.percent(20) { n as u64 } else { 1 }).collect(),
    }
}

fn voters(rng: &mut Rng, n: usize, heavy: bool) -> Vec<(u32, u64)> {
    let mut ids = ids(rng, n);
    ids.sort();
    ids.into_iter().zip(weights(rng, n, heavy)).collect()
}

/// The voter list that makes these voters: in any order, weights in parts, weights of zero.
fn pairs(rng: &mut Rng, voters: &[(u32, u64)], most: usize) -> Vec<(u32, u64)> {
    let mut out = voters.to_vec();
    while out.len() < most && rng.percent(97) {
        match rng.below(3) {
            0 => {
                let id = if rng.percent(50) { rng.next() as u32 } else { rng.pick(&out).0 };
                out.push((id, 0));
            }
            _ => {
                let at = rng.below(out.len());
                let part = if out[at].1 == 0 { 0 } else { rng.next() % out[at].1 };
                out[at].1 -= part;
                out.push((out[at].0, part));
            }
        }
    }
    rng.shuffle(&mut out);
    out
}

/// How the votes of a journal fall.
struct Mood {
    /// Percent of voters heard in each phase.
    heard: [usize; 2],
    /// Weight of equivocators aimed at in each phase, as (at least, at most).
    equivocators: [(u64, u64); 2],
    /// Percent of first votes that go to, above or below a favourite block.
    gathered: usize,
    /// Percent of records that are duplicates, third votes or strangers, added on top.
    noise: usize,
    /// Percent of blocks that come after the opening.
    late: usize,
}

fn target(rng: &mut Rng, world: &World, favourite: usize, gathered: usize, within: &[usize]) -> usize {
    if !rng.percent(gathered) {
        return rng.pick(within);
    }
    match rng.below(4) {
        0 => {
            // Above the favourite, towards the base.
            let mut at = favourite;
            while at != world.base && rng.percent(60) {
                at = world.blocks[at].parent;
            }
            at
        }
        1 => {
            let below: Vec<usize> = within.iter().copied().filter(|&b| world.under(favourite, b)).collect();
            rng.pick(&below)
        }
        _ => favourite,
    }
}

fn vote(world: &World, precommit: bool, voter: usize, target: usize, signature: u64) -> Record {
    let block = world.blocks[target];
    Vote(precommit, world.voters[voter].0, block.id, block.number, signature)
}

/// The second, different pair of an equivocator. Its target isn't looked up, so it may be anything.
fn second(rng: &mut Rng, world: &World, first: &Record) -> Record {
    let Vote(precommit, voter, target, number, signature) = first.clone() else { unreachable!() };
    match rng.below(8) {
        0 => Vote(precommit, voter, target, number, signature ^ 1),
        1 => Vote(precommit, voter, target, number.wrapping_add(1), signature),
        2 => Vote(precommit, voter, rng.next() as u32, rng.next() as u32, rng.next()),
        _ => {
            let other = rng.pick(&world.blocks);
            let signature = if other.id == target { signature ^ 1 } else { signature };
            Vote(precommit, voter, other.id, other.number, signature)
        }
    }
}

fn votes(rng: &mut Rng, world: &World, mood: &Mood) -> Vec<Record> {
    let within = world.under_base();
    let mut favourite = rng.pick(&within);
    let mut streams: [Vec<Record>; 2] = [Vec::new(), Vec::new()];
    for phase in 0..2 {
        if rng.percent(30) {
            favourite = rng.pick(&within);
        }
        let mut firsts = Vec::new();
        for voter in 0..world.voters.len() {
            if rng.percent(mood.heard[phase]) {
                let at = target(rng, world, favourite, mood.gathered, &within);
                let signature = if rng.percent(70) { 0 } else { rng.next() };
                firsts.push((voter, vote(world, phase == 1, voter, at, signature)));
            }
        }
        rng.shuffle(&mut firsts);
        // Equivocators, as long as their weight stays in bounds.
        let (least, most) = mood.equivocators[phase];
        let mut weight = 0u64;
        let mut seconds = Vec::new();
        let mut order: Vec<usize> = (0..firsts.len()).collect();
        rng.shuffle(&mut order);
        for at in order {
            let own = world.voters[firsts[at].0].1;
            let enough = weight >= least && rng.percent(50);
            if !enough && weight.checked_add(own).is_some_and(|w| w <= most) {
                weight += own;
                seconds.push((at, second(rng, world, &firsts[at].1)));
            }
        }
        // A second vote comes at any time after its first.
        let mut keyed: Vec<(u64, Record)> = Vec::new();
        for (at, (_, first)) in firsts.iter().enumerate() {
            keyed.push(((at as u64) << 32, first.clone()));
        }
        for (at, record) in seconds {
            let key = ((at as u64) << 32) + 1 + rng.next() % (((firsts.len() - at) as u64) << 32);
            keyed.push((key, record));
        }
        keyed.sort_by_key(|k| k.0);
        streams[phase] = keyed.into_iter().map(|k| k.1).collect();
    }
    // Prevotes first, or the phases mixed.
    let mixed = match rng.below(3) {
        0 => 0,
        1 => 15,
        _ => 50,
    };
    let [prevotes, precommits] = streams;
    let (mut a, mut b) = (prevotes.into_iter().peekable(), precommits.into_iter().peekable());
    let mut out: Vec<Record> = Vec::new();
    loop {
        let take_b = a.peek().is_none() || (b.peek().is_some() && rng.percent(mixed));
        let Some(record) = (if take_b { b.next() } else { a.next() }) else { break };
        out.push(record);
        while rng.percent(mood.noise) {
            let Vote(precommit, voter, target, number, signature) = rng.pick(&out) else { continue };
            match rng.below(4) {
                0 | 1 => out.push(Vote(precommit, voter, target, number, signature)),
                2 => {
                    // A third pair, where this voter has two. A second one would be an equivocation
                    // that the mood did not ask for.
                    let heard = out.iter().filter(|r| matches!(r, Vote(p, v, ..) if *p == precommit && *v == voter));
                    let mut different: Vec<&Record> = heard.collect();
                    different.dedup();
                    if different.len() >= 2 && different[0] != different[1] {
                        out.push(Vote(precommit, voter, target, number, rng.next() | 1));
                    }
                }
                _ => {
                    let stranger = rng.next() as u32;
                    if world.voters.iter().all(|v| v.0 != stranger) {
                        let target = if rng.percent(50) { target } else { rng.next() as u32 };
                        out.push(Vote(precommit, stranger, target, number, signature));
                    }
                }
            }
        }
    }
    out
}

/// Puts the blocks from `early` on between the votes, each before the first vote that names it.
fn weave(rng: &mut Rng, world: &World, early: usize, votes: Vec<Record>) -> Vec<Record> {
    let mut out = Vec::new();
    let mut next = early;
    for record in votes {
        let named = match record {
            Vote(_, _, target, ..) => world.blocks.iter().position(|b| b.id == target),
            _ => None,
        };
        // A second vote for a block that isn't there yet is left alone sometimes: it isn't looked up.
        let first = !out.iter().any(|r| matches!((r, &record), (Vote(p, v, ..), Vote(q, w, ..)) if p == q && v == w));
        while next < world.blocks.len() && (rng.percent(10) || (first && named.is_some_and(|n| n >= next))) {
            out.push(world.block(next));
            next += 1;
        }
        out.push(record);
    }
    while next < world.blocks.len() && rng.percent(50) {
        out.push(world.block(next));
        next += 1;
    }
    out
}

/// Bare blocks side by side that pass only by the votes of two or more nodes below each: the search
/// for the merge point decides between them.
fn forks(rng: &mut Rng) -> Vec<Record> {
    let n = rng.from_to(7, 16);
    let (sides, twigs) = (rng.from_to(2, 3), rng.from_to(2, 3));
    let fault = (n - 1) / 3;
    let missing = rng.from_to(2, twigs);
    let equivocators = n - fault - missing;
    let mut parents = vec![0];
    let stem = rng.below(3);
    parents.extend(0..stem);
    let mut leaves = Vec::new();
    for _ in 0..sides {
        let side = parents.len();
        parents.push(stem);
        for _ in 0..twigs {
            let mut at = side;
            for _ in 0..rng.from_to(1, 2) {
                parents.push(at);
                at = parents.len() - 1;
            }
            leaves.push(at);
        }
    }
    let ids = ids(rng, parents.len());
    let mut blocks: Vec<Block> = Vec::new();
    for (at, &parent) in parents.iter().enumerate() {
        let number = if at == 0 { 0 } else { blocks[parent].number + 1 };
        blocks.push(Block { id: ids[at], number, parent });
    }
    let voters: Vec<(u32, u64)> = (1..=n as u32).map(|id| (id, 1)).collect();
    let world = World { pairs: voters.clone(), voters, blocks, base: 0, round: 1 };
    rng.shuffle(&mut leaves);
    let mut keyed = Vec::new();
    for voter in 0..n {
        let at = if voter < equivocators { rng.from_to(0, stem) } else { leaves[voter % leaves.len()] };
        for phase in [false, true] {
            if phase && rng.percent(40) {
                continue;
            }
            let (first, key) = (vote(&world, phase, voter, at, 0), rng.below(1000));
            if voter < equivocators {
                keyed.push((key + 1 + rng.below(1000), second(rng, &world, &first)));
            }
            keyed.push((key, first));
        }
    }
    keyed.sort_by_key(|k| k.0);
    let out: Vec<Record> = keyed.into_iter().map(|k| k.1).collect();
    [world.head(world.blocks.len()), out].concat()
}

fn story(class: &str, rng: &mut Rng) -> Vec<Record> {
    if class == "forks" {
        return forks(rng);
    }
    let (n, b) = match class {
        "full" => (rng.from_to(60, 64), rng.from_to(250, 256)),
        "spread" => (rng.from_to(12, 64), rng.from_to(30, 256)),
        "lists" => (rng.pick(&[1, 2, 3, 20, 63, 64]), rng.from_to(1, 12)),
        "heavy" => (rng.from_to(1, 9), rng.from_to(2, 10)),
        "siblings" => (rng.from_to(3, 12), rng.from_to(5, 20)),
        "above" | "over" if rng.percent(50) => (rng.from_to(3, 6), rng.from_to(3, 9)),
        _ if rng.percent(10) => (rng.from_to(5, 30), rng.from_to(5, 60)),
        _ => (rng.from_to(1, 7), rng.from_to(1, 14)),
    };
    let root_number = match class {
        // The last block may have the last number there is.
        "numbers" => u32::MAX - rng.below(b) as u32,
        _ if rng.percent(60) => 0,
        _ => rng.next() as u32 / 2,
    };
    let shapes: &[usize] = if class == "siblings" { &[0, 3, 4, 5] } else { &[0, 1, 2, 3, 4, 5, 6] };
    let mut blocks = tree(rng, b, root_number, shapes);
    if class == "numbers" {
        // Children of a block with the last number would be refused: hang them higher up.
        for at in 1..b {
            while blocks[blocks[at].parent].number == u32::MAX && blocks[at].parent > 0 {
                blocks[at].parent = blocks[blocks[at].parent].parent;
            }
            let above = blocks[blocks[at].parent].number;
            if above == u32::MAX {
                blocks.truncate(at);
                break;
            }
            blocks[at].number = above + 1;
        }
    }
    let heavy = class == "heavy" || rng.percent(3);
    let set = voters(rng, n, heavy);
    let list = match class {
        "lists" => pairs(rng, &set, 256),
        _ if rng.percent(20) => pairs(rng, &set, set.len() + 3),
        _ => set.clone(),
    };
    let mut world = World { voters: set, pairs: list, blocks, base: 0, round: rng.pick(&[0, 1, 7, u64::MAX]) };
    if class == "bases" {
        world.base = rng.below(world.blocks.len());
    } else if rng.percent(25) {
        world.base = rng.below(world.blocks.len().min(4));
    }
    let (total, fault) = (world.total(), world.fault());
    let none = (0, 0);
    let any_below = (if rng.percent(50) { fault } else { 0 }, fault);
    let past = (fault.saturating_add(1).min(total), total);
    // Every block qualifies once the equivocators alone reach T.
    let ruling = (total - fault, total);
    let equivocators = match class {
        "plain" => [none, none],
        "below" => [any_below, any_below],
        "bases" | "growing" | "noise" | "spread" if rng.percent(70) => [any_below, any_below],
        "above" => match rng.below(4) {
            0 => [past, none],
            1 => [past, any_below],
            2 => [any_below, past],
            _ => [past, past],
        },
        "over" => [ruling, if rng.percent(50) { ruling } else { past }],
        // Nearly enough: several siblings pass, each with a few votes of its own.
        "siblings" => {
            let short = if rng.percent(50) { 1 } else { 2 } * total.div_ceil(world.voters.len() as u64);
            [(ruling.0.saturating_sub(short).max(past.0), total), past]
        }
        _ => match rng.below(4) {
            0 => [none, none],
            1 => [any_below, any_below],
            2 => [past, past],
            _ => [past, any_below],
        },
    };
    let mood = Mood {
        heard: match rng.below(4) {
            0 => [100, 100],
            1 => [90, 75],
            2 => [rng.from_to(60, 100), rng.from_to(30, 100)],
            _ => [95, 90],
        },
        equivocators,
        gathered: match class {
            "spread" => rng.below(40),
            "over" => rng.pick(&[0, 30, 60]),
            "siblings" => 0,
            _ => rng.pick(&[30, 60, 85, 95]),
        },
        noise: match class {
            "noise" => 40,
            _ if rng.percent(20) => 10,
            _ => 0,
        },
        late: match class {
            "growing" => rng.from_to(30, 100),
            _ if rng.percent(10) => 30,
            _ => 0,
        },
    };
    let early = (world.blocks.len() - world.blocks.len() * mood.late / 100).max(world.base + 1);
    let list = votes(rng, &world, &mood);
    let mut out = world.head(early);
    if early < world.blocks.len() {
        out.extend(weave(rng, &world, early, list));
    } else {
        out.extend(list);
    }
    out
}

fn place(rng: &mut Rng, records: &[Record], allowed: impl Fn(&[Record]) -> bool) -> Option<usize> {
    let places: Vec<usize> = (0..=records.len()).filter(|&k| allowed(&records[..k])).collect();
    if places.is_empty() {
        None
    } else {
        Some(rng.pick(&places))
    }
}

fn opened(before: &[Record]) -> bool {
    before.iter().any(|r| matches!(r, Op(..)))
}

fn rooted(before: &[Record]) -> bool {
    before.iter().any(|r| matches!(r, Rt(..)))
}

/// One refusal, planted where its turn allows it, so that its number is most often the one given.
fn refused(rng: &mut Rng) -> Vec<u8> {
    let number = rng.pick(&[1, 2, 3, 4, 5, 6, 7, 8, 10, 11, 12, 13, 13, 17, 18]);
    // Only a base further down leaves blocks that are not below it.
    let class = if number == 13 { "bases" } else { rng.pick(&["plain", "below", "above", "growing", "bases"]) };
    let mut records = story(class, rng);
    let table: Vec<u32> = records
        .iter()
        .filter_map(|r| match r {
            Rt(id, _) | Bk(id, _) => Some(*id),
            _ => None,
        })
        .collect();
    let voters: Vec<u32> = records
        .iter()
        .filter_map(|r| match r {
            Vt(id, w) if *w > 0 => Some(*id),
            _ => None,
        })
        .collect();
    let unknown = loop {
        let id = rng.next() as u32;
        if !table.contains(&id) {
            break id;
        }
    };
    let vts = voters.len();
    match number {
        1 => {
            let more: Vec<Record> =
                (0..rng.from_to(254, 260) - vts).map(|i| Vt(i as u32 % 64, (i % 3) as u64)).collect();
            records.splice(0..0, more);
        }
        2 => {
            let heavy = u64::MAX - rng.below(2) as u64;
            let at = rng.below(vts + 1);
            records.insert(at, Vt(rng.pick(&voters), heavy));
            if rng.percent(30) {
                // More than 64 ids too: 2 comes first.
                let more: Vec<Record> = (0..70).map(|i| Vt(1000 + i, 1)).collect();
                records.splice(0..0, more);
            }
        }
        3 => {
            for record in records.iter_mut() {
                if let Vt(_, w) = record {
                    *w = 0;
                }
            }
            if rng.percent(30) {
                records.retain(|r| !matches!(r, Vt(..)));
            }
        }
        4 => {
            let n = rng.from_to(62, 68);
            records.retain(|r| !matches!(r, Vt(..)));
            let zero = if rng.percent(50) { rng.below(n) } else { n };
            let more: Vec<Record> = (0..n).map(|i| Vt(3 * i as u32, (i != zero) as u64)).collect();
            records.splice(0..0, more);
        }
        5 | 6 => {
            let parent = if rng.percent(50) { unknown } else { rng.pick(&table) };
            let block = if number == 5 { rng.pick(&table) } else { unknown };
            let parent = if number == 6 && parent != unknown { unknown ^ 1 } else { parent };
            if let Some(at) = place(rng, &records, rooted) {
                records.insert(at, Bk(block, parent));
            }
        }
        7 if rng.percent(40) => {
            // A full table, or nearly, whose last block can have no child: 7 comes before 8.
            let n = rng.from_to(253, 256) as u32;
            records = vec![Vt(1, 1), Rt(0, u32::MAX - 1)];
            records.extend((1..n).map(|b| Bk(b, 0)));
            records.push(Bk(n + rng.below(2) as u32 * 9, rng.below(n as usize) as u32));
            records.push(Op(0, 1));
        }
        7 => {
            // The root has the last number or one near it.
            for record in records.iter_mut() {
                if let Rt(_, n) = record {
                    *n = u32::MAX - rng.below(3) as u32;
                }
            }
        }
        8 => {
            let at = place(rng, &records, rooted).unwrap();
            let root = table[0];
            let room = 256 - (0..at).filter(|&k| matches!(records[k], Rt(..) | Bk(..))).count();
            let n = room + rng.below(3);
            let fresh = (unknown | 0x8000_0000).saturating_sub(2000);
            let more: Vec<Record> = (0..n)
                .map(|i| Bk(fresh + i as u32, if i > 0 && i % 2 == 0 { fresh + i as u32 - 1 } else { root }))
                .collect();
            records.splice(at..at, more);
            if rng.percent(30) {
                // A known id or an unknown parent on a full table: 5 and 6 come first.
                let block = if rng.percent(50) { root } else { unknown };
                records.insert(at + n - 1, Bk(block, unknown ^ 3));
            }
        }
        10 => {
            for record in records.iter_mut() {
                if let Op(_, base) = record {
                    *base = unknown;
                }
            }
        }
        11 | 12 | 13 => {
            // Early, where most votes are first votes, or anywhere.
            let anywhere = rng.percent(40);
            let early = |before: &[Record]| {
                opened(before) && (anywhere || before.iter().rev().take(2).any(|r| matches!(r, Op(..))))
            };
            let Some(at) = place(rng, &records, early) else { return bytes(&records) };
            let voter = if rng.percent(85) { rng.pick(&voters) } else { rng.next() as u32 };
            let numbers = numbers(&records[..at]);
            let (id, n) = rng.pick(&numbers);
            let record = match number {
                11 => Vote(rng.percent(50), voter, unknown, n, 0),
                12 => Vote(rng.percent(50), voter, id, rng.pick(&[n.wrapping_add(1), n.wrapping_sub(1), 0]), 0),
                _ => Vote(rng.percent(50), voter, id, n.wrapping_add(rng.percent(10) as u32), 0),
            };
            records.insert(at, record);
        }
        17 => {
            let at = rng.below(records.len() + 1);
            let mark = unknown_mark(rng);
            records.insert(at, Raw(mark));
        }
        _ => {
            let at = rng.below(records.len() + 1);
            let again = rng.pick(&records);
            records.insert(at, again);
        }
    }
    bytes(&records)
}

/// The blocks of a journal's start, with their numbers.
fn numbers(records: &[Record]) -> Vec<(u32, u32)> {
    let mut out: Vec<(u32, u32)> = Vec::new();
    for record in records {
        match record {
            Rt(id, n) => out.push((*id, *n)),
            Bk(id, parent) => {
                let n = out.iter().find(|b| b.0 == *parent).map_or(0, |b| b.1.wrapping_add(1));
                out.push((*id, n));
            }
            _ => {}
        }
    }
    out
}

fn unknown_mark(rng: &mut Rng) -> Vec<u8> {
    let near: [&[u8]; 14] =
        [b"vt", b"VT", b"Vt\0", b"tV", b"Pb", b"Pd", b"Bl", b"oP", b"rt", b"Rs", b"Sm", b"\0\0", b"\xff\xff", b"PV"];
    let mut mark = match rng.below(4) {
        0 => vec![rng.next() as u8, rng.next() as u8],
        _ => rng.pick(&near).to_vec(),
    };
    if rng.percent(50) {
        mark.extend((0..rng.below(24)).map(|_| 0u8));
    }
    mark
}

/// Unknown marks and records out of turn, several in one journal.
fn marks(rng: &mut Rng) -> Vec<u8> {
    let mut records = story("plain", rng);
    for _ in 0..rng.from_to(1, 3) {
        let at = rng.below(records.len() + 1);
        match rng.below(5) {
            0 => {
                let mark = unknown_mark(rng);
                records.insert(at, Raw(mark));
            }
            1 => {
                let (from, to) = (rng.below(records.len()), rng.below(records.len()));
                records.swap(from, to);
            }
            2 => {
                let record = rng.pick(&records);
                records.insert(at, record);
            }
            3 => {
                records.remove(at.min(records.len() - 1));
            }
            _ => {
                // A vote of a stranger before the opening is out of turn as well.
                let record = Vote(rng.percent(50), rng.next() as u32, 10, 0, 0);
                records.insert(at, record);
            }
        }
        if records.is_empty() {
            break;
        }
    }
    let mut out = bytes(&records);
    match rng.below(10) {
        // The unknown mark at the very end, or half of it.
        0 => out.extend(&unknown_mark(rng)[..rng.from_to(1, 2)]),
        // A record that is out of turn but not whole is not judged.
        1 | 2 => {
            let last = rng.pick(&[Vt(1, 1), Rt(10, 0), Bk(11, 10), Op(7, 10), Vote(false, 1, 10, 0, 0)]);
            let last = bytes(&[last]);
            out.extend(&last[..rng.from_to(1, last.len())]);
        }
        _ => {}
    }
    out
}

/// Some megabytes of votes that change nothing, between votes that do.
fn long(rng: &mut Rng) -> Vec<u8> {
    let records = story("noise", rng);
    let opened = records.iter().position(|r| matches!(r, Op(..))).unwrap();
    let mut out = bytes(&records[..=opened]);
    for (at, record) in records.iter().enumerate().skip(opened + 1) {
        record.put(&mut out);
        for _ in 0..rng.below(5000) {
            match rng.pick(&records[opened + 1..=at]) {
                Vote(p, _, t, n, s) if rng.percent(30) => {
                    Vote(p, 0xABCD_0000 + rng.below(9) as u32, t, n, s).put(&mut out)
                }
                again @ Vote(..) => again.put(&mut out),
                _ => {}
            }
        }
    }
    out.truncate(out.len() - rng.below(22));
    out
}

/// All trees of `blocks` blocks, both orders of ids, the root or its first child as base, three ways
/// to weigh two voters, and every sequence of `length` vote records of theirs for blocks at or below
/// the base: each is a journal of its own.
pub fn tiny(blocks: usize, length: usize, mut each: impl FnMut(&[u8])) {
    let trees: usize = (1..blocks).product();
    for tree in 0..trees {
        let mut code = tree;
        let parents: Vec<usize> = (0..blocks)
            .map(|at| {
                if at < 2 {
                    return 0;
                }
                let parent = code % at;
                code /= at;
                parent
            })
            .collect();
        let mut numbers = vec![0u32; blocks];
        for at in 1..blocks {
            numbers[at] = numbers[parents[at]] + 1;
        }
        for falling in [false, true] {
            let id = |at: usize| if falling { 20 - at as u32 } else { 10 + at as u32 };
            for base in 0..blocks.min(2) {
                let under = |mut at: usize| {
                    while at > base {
                        at = parents[at];
                    }
                    at == base
                };
                let targets: Vec<usize> = (0..blocks).filter(|&at| under(at)).collect();
                let letters = 2 * 2 * targets.len();
                for weights in [[1, 1], [2, 1], [3, 1]] {
                    let mut head: Vec<Record> = (0..2).map(|v| Vt(v as u32 + 1, weights[v])).collect();
                    head.push(Rt(id(0), 0));
                    head.extend((1..blocks).map(|at| Bk(id(at), id(parents[at]))));
                    head.push(Op(7, id(base)));
                    let head = bytes(&head);
                    for sequence in 0..letters.pow(length as u32) {
                        let mut journal = head.clone();
                        let mut code = sequence;
                        for _ in 0..length {
                            let (voter, rest) = (code % 2, code / 2);
                            let (phase, rest) = (rest % 2, rest / 2);
                            let at = targets[rest % targets.len()];
                            code = rest / targets.len();
                            Vote(phase == 1, voter as u32 + 1, id(at), numbers[at], 0).put(&mut journal);
                        }
                        each(&journal);
                    }
                }
            }
        }
    }
}

/// One voter of each total up to 1,001, so all around every multiple of 3 up to 1,000; around every
/// power of two from there on; and the last nine. The lines of an opened round say what its total needs.
pub fn totals() -> Vec<Vec<u8>> {
    let mut totals: Vec<u64> = (0..=1001).collect();
    totals.extend((10..64).flat_map(|power| [(1u64 << power) - 1, 1 << power, (1 << power) + 1]));
    totals.extend(u64::MAX - 8..=u64::MAX);
    totals.into_iter().map(|total| bytes(&[Vt(1, total), Rt(10, 0), Op(7, 10)])).collect()
}
