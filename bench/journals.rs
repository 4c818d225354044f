//! The journals that are timed. Each is made from numbers alone, the same on every machine.

use crate::generate::{self, Rng};
use crate::journal::{bytes, case_j, Record, Record::*};

/// How the blocks hang together.
#[derive(Clone, Copy)]
pub enum Tree {
    /// One line.
    Line,
    /// Mostly a line, with twigs.
    Twigs,
    /// Any earlier block is a parent.
    Bush,
    /// So many lines side by side under the root, equally long.
    Lines(usize),
}

/// Where first votes go.
#[derive(Clone, Copy)]
pub enum Aim {
    /// Near the end of the longest line: most for one block, some for blocks above it.
    Gathered,
    /// Each vote of a phase for another leaf, as long as there are leaves.
    Leaves,
    /// Anywhere in the table.
    Anywhere,
    /// All for one block, at this depth.
    At(usize),
}

pub struct Shape {
    pub voters: usize,
    pub blocks: usize,
    pub tree: Tree,
    pub aim: Aim,
    /// How many voters give a second, different pair in each phase.
    pub seconds: usize,
    /// How often all votes are said again.
    pub again: usize,
}

pub struct Case {
    pub name: String,
    pub journal: Vec<u8>,
    /// Vote records.
    pub votes: usize,
    /// Bytes before the first vote record.
    pub opened: usize,
}

fn case(name: impl Into<String>, journal: Vec<u8>) -> Case {
    let (mut at, mut votes, mut opened) = (0, 0, None);
    while at + 2 <= journal.len() {
        let size = match &journal[at..at + 2] {
            b"Vt" | b"Op" => 14,
            b"Rt" | b"Bk" => 10,
            b"Pv" | b"Pc" => {
                opened.get_or_insert(at);
                votes += 1;
                22
            }
            _ => break,
        };
        at += size;
    }
    Case { name: name.into(), opened: opened.unwrap_or(journal.len()), votes, journal }
}

/// Ids that tell nothing of the place, as hashes do.
fn id(at: usize) -> u32 {
    Rng(at as u64).next() as u32
}

pub fn made(shape: &Shape) -> Vec<u8> {
    let Shape { voters, blocks, tree, aim, seconds, again } = *shape;
    let mut rng = Rng(9);
    let mut parents = vec![0usize; blocks];
    for at in 1..blocks {
        parents[at] = match tree {
            Tree::Line => at - 1,
            Tree::Twigs if rng.percent(70) => at - 1,
            Tree::Twigs | Tree::Bush => rng.below(at),
            Tree::Lines(count) if at <= count => 0,
            Tree::Lines(count) => at - count,
        };
    }
    let mut depths = vec![0usize; blocks];
    let mut leaf = vec![true; blocks];
    for at in 1..blocks {
        depths[at] = depths[parents[at]] + 1;
        leaf[parents[at]] = false;
    }
    let leaves: Vec<usize> = (0..blocks).filter(|&at| leaf[at]).collect();
    let deepest = (0..blocks).max_by_key(|&at| depths[at]).unwrap();

    let mut out: Vec<Record> = (0..voters).map(|v| Vt(id(1000 + v), 1)).collect();
    out.push(Rt(id(0), 0));
    out.extend((1..blocks).map(|at| Bk(id(at), id(parents[at]))));
    out.push(Op(7, id(0)));

    let mut said = Vec::new();
    for phase in [false, true] {
        for voter in 0..voters {
            let at = match aim {
                Aim::Gathered => {
                    let mut at = deepest;
                    while at > 0 && rng.percent(35) {
                        at = parents[at];
                    }
                    at
                }
                Aim::Leaves => leaves[(voter + if phase { voters } else { 0 }) % leaves.len()],
                Aim::Anywhere => rng.below(blocks),
                Aim::At(depth) => (0..blocks).find(|&at| depths[at] == depth).unwrap_or(deepest),
            };
            said.push(Vote(phase, id(1000 + voter), id(at), depths[at] as u32, 0));
            if voter < seconds {
                let other = rng.below(blocks);
                said.push(Vote(phase, id(1000 + voter), id(other), depths[other] as u32, 1));
            }
        }
    }
    for _ in 0..again + 1 {
        out.extend(said.iter().cloned());
    }
    bytes(&out)
}

fn plain(voters: usize, blocks: usize) -> Shape {
    Shape { voters, blocks, tree: Tree::Twigs, aim: Aim::Gathered, seconds: 0, again: 0 }
}

/// Same voters and blocks, one vote said over and over.
fn one_again(voters: usize, blocks: usize, times: usize) -> Vec<u8> {
    let whole = made(&plain(voters, blocks));
    let opened = case("", whole.clone()).opened;
    let vote = whole[opened..opened + 22].to_vec();
    [whole[..opened].to_vec(), vote.repeat(times)].concat()
}

pub const CLASSES: [&str; 11] =
    ["plain", "below", "above", "full", "spread", "noise", "forks", "growing", "bases", "heavy", "lists"];

/// What is timed beside the Rust.
pub fn replays() -> Vec<Case> {
    let mut out = vec![case("case J", bytes(&case_j()))];
    for voters in [4, 16, 64] {
        out.push(case(format!("plain, {voters} voters"), made(&plain(voters, 16))));
    }
    for voters in [4, 64] {
        out.push(case(format!("256 blocks, {voters} voters"), made(&plain(voters, 256))));
    }
    let line = Shape { tree: Tree::Line, aim: Aim::Anywhere, ..plain(64, 256) };
    out.push(case("256 blocks in a line", made(&line)));
    for voters in [4, 64] {
        let end = Shape { tree: Tree::Line, aim: Aim::At(255), ..plain(voters, 256) };
        out.push(case(format!("the end of 256 in a line, {voters} voters"), made(&end)));
    }
    out.push(case("256 blocks, votes anywhere", made(&Shape { tree: Tree::Bush, ..line })));
    for heads in [16, 64, 127] {
        let shape = Shape { tree: Tree::Lines(heads), aim: Aim::Leaves, ..plain(64, 1 + 2 * heads) };
        out.push(case(format!("{heads} heads"), made(&shape)));
    }
    for seconds in [1, 21, 64] {
        out.push(case(format!("{seconds} of 64 equivocate"), made(&Shape { seconds, ..plain(64, 16) })));
    }
    out.push(case("1 of 4 equivocates", made(&Shape { seconds: 1, ..plain(4, 16) })));
    out.push(case("duplicates, 4 voters", one_again(4, 16, 1000)));
    out.push(case("duplicates, 64 voters", made(&Shape { again: 15, ..plain(64, 16) })));
    out.push(case("2 votes", made(&plain(1, 1))));
    out.push(case("2 votes, 2 blocks", made(&plain(1, 2))));
    let mut three = made(&plain(2, 3));
    three.truncate(three.len() - 22);
    out.push(case("3 votes, 3 blocks", three));
    let mut one = made(&plain(4, 4));
    one.truncate(case("", one.clone()).opened + 22);
    out.push(case("1 vote of 4", one));
    for class in CLASSES {
        for index in [0, 1] {
            out.push(case(format!("{class} {index}"), generate::journal(class, 9, index)));
        }
    }
    out
}

/// Journals without a vote: an engineer's replay may end before one.
pub fn voteless() -> Vec<Case> {
    let whole = bytes(&case_j());
    let mut unknown = whole.clone();
    unknown[0] = b'?';
    let mut full = made(&plain(64, 256));
    full.truncate(case("", full.clone()).opened);
    vec![
        case("no bytes", Vec::new()),
        case("unknown mark at once", unknown),
        case("case J to its first Vt", whole[..14].to_vec()),
        case("case J to its Rt", whole[..66].to_vec()),
        case("case J to its Op", whole[..110].to_vec()),
        case("64 voters, 256 blocks to the Op", full),
    ]
}

/// Sizes at which a tested import is held beside the Rust's.
pub fn imports() -> Vec<Case> {
    let mut out = vec![case("case J", bytes(&case_j()))];
    for voters in [4, 16, 64] {
        for blocks in [4, 64, 256] {
            out.push(case(format!("{voters} voters, {blocks} blocks"), made(&plain(voters, blocks))));
        }
    }
    let shape = Shape { tree: Tree::Lines(127), aim: Aim::Leaves, ..plain(64, 255) };
    out.push(case("127 heads", made(&shape)));
    out.push(case("64 of 64 equivocate", made(&Shape { seconds: 64, ..plain(64, 256) })));
    out
}

/// One thing grows, the others stay.
pub fn sweeps() -> Vec<(&'static str, Vec<Case>)> {
    let by = |sizes: &[usize], make: &dyn Fn(usize) -> Shape| -> Vec<Case> {
        sizes.iter().map(|&n| case(n.to_string(), made(&make(n)))).collect()
    };
    vec![
        ("voters (16 blocks)", by(&[1, 2, 4, 8, 16, 32, 64], &|n| plain(n, 16))),
        ("blocks (16 voters)", by(&[2, 4, 8, 16, 32, 64, 128, 256], &|n| plain(16, n))),
        (
            "depth of the voted block (16 voters, a line of 256 blocks)",
            by(&[0, 1, 4, 16, 64, 128, 255], &|n| Shape { tree: Tree::Line, aim: Aim::At(n), ..plain(16, 256) }),
        ),
        (
            "heads (64 voters, a leaf each, 255 blocks)",
            by(&[1, 2, 4, 8, 16, 32, 64, 127], &|n| Shape { tree: Tree::Lines(n), aim: Aim::Leaves, ..plain(64, 255) }),
        ),
    ]
}
