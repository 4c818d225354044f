//! Document 02, R-3, on pairs of generated journals of one round: the Rust tells the final blocks, the two-view sum is worked out from the
//! journals' bytes, and the library must give it. `bindings/pairs` runs it: `pairs JUDGE [COUNT [SEED]]`, JUDGE being oracle/out/oracle.
#[path = "../tests/common/mod.rs"]
mod common;
use beamtassel::{replay, two_views, Report};
use common::pairs::{pair, sums, Dice};
use common::{records, word};
use std::collections::HashMap;
use std::io::{BufReader, BufWriter, Read, Write};
use std::process::{Command, Stdio};
use std::{env, thread};

/// The id that a line `final ID NUMBER` tells.
fn final_block(lines: &str) -> Option<u32> {
    let line = lines.lines().find_map(|line| line.strip_prefix("final ")).expect("the journal has a round");
    (line != "none").then(|| line.split(' ').next().unwrap().parse().unwrap())
}

/// Whether a block is another or its descendant, by the parents that the journal names.
fn is_at_or_below(journal: &[u8], upper: u32, block: u32) -> bool {
    let blocks = records(journal).0.into_iter().filter(|record| record.starts_with(b"Bk"));
    let parents: HashMap<u32, u32> = blocks.map(|record| (word(record, 2), word(record, 6))).collect();
    let mut at = Some(block);
    while let Some(id) = at {
        if id == upper {
            return true;
        }
        at = parents.get(&id).copied();
    }
    false
}

fn main() {
    let arguments: Vec<String> = env::args().collect();
    let number = |at: usize, default: u64| arguments.get(at).map_or(default, |word| word.parse().expect("a number"));
    let (count, seed) = (number(2, 200_000), number(3, 3));
    let judge = arguments.get(1).expect("pairs JUDGE [COUNT [SEED]]");
    let mut judge = Command::new(judge)
        .arg("--pipe")
        .stdin(Stdio::piped())
        .stdout(Stdio::piped())
        .spawn()
        .unwrap_or_else(|error| panic!("{judge}: {error}"));

    let mut asked = BufWriter::new(judge.stdin.take().unwrap());
    let asking = thread::spawn(move || {
        let mut dice = Dice(seed);
        for _ in 0..count {
            let (one, other) = pair(&mut dice);
            for journal in [one, other] {
                asked.write_all(&(journal.len() as u32).to_le_bytes()).unwrap();
                asked.write_all(&journal).unwrap();
            }
        }
        asked.flush().unwrap();
    });
    let mut answers = BufReader::new(judge.stdout.take().unwrap());
    let mut answer = || {
        let mut length = [0; 4];
        answers.read_exact(&mut length).unwrap();
        let mut lines = vec![0; u32::from_le_bytes(length) as usize];
        answers.read_exact(&mut lines).unwrap();
        String::from_utf8(lines).unwrap()
    };

    let mut dice = Dice(seed);
    let (mut above, mut both_final, mut apart, mut least, mut missed, mut alone) = (0, 0, 0, u64::MAX, 0, 0);
    for at in 0..count {
        let (one, other) = pair(&mut dice);
        let finals = [final_block(&answer()), final_block(&answer())];
        let sums = sums(&one, &other);
        assert_eq!(two_views(&one, &other), Ok(sums.sum), "pair {at}");
        for (journal, block) in [&one, &other].into_iter().zip(finals) {
            let Report::Round(round) = replay(journal) else { panic!("pair {at}: no round") };
            assert_eq!(round.finalized.map(|block| block.id), block, "pair {at}");
        }
        above += (sums.fault() < sums.equivocators[0].max(sums.equivocators[1])) as u64;
        let on_lines = match finals {
            [Some(a), Some(b)] => {
                both_final += 1;
                is_at_or_below(&one, a, b) || is_at_or_below(&one, b, a)
            }
            _ => true,
        };
        if on_lines {
            alone += (sums.fault() < sums.sum) as u64;
            continue;
        }
        apart += 1;
        assert!(sums.fault() < sums.sum, "pair {at}: {finals:?} and {sums:?}");
        least = least.min(sums.sum - sums.fault());
        missed += (sums.first_targets <= sums.fault()) as u64;
    }
    asking.join().unwrap();
    println!("{count} pairs, seed {seed}; {above} with precommit equivocators above F; {both_final} with a final block in each");
    println!("{apart} with final blocks apart: the sum is above F in each, by {least} at least; by first targets alone not in {missed}");
    println!("{alone} others have a sum above F too");
    assert!(count < 100_000 || (1_000 <= apart && 0 < missed && 0 < alone), "too few pairs that tell something");
}
