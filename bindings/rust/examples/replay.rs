//! Replays a journal from standard input: `cargo run --offline --example replay < JOURNAL`
use beamtassel::{finalizing, lines, replay, Report};
use std::io::{self, Read};

fn main() -> io::Result<()> {
    let mut journal = Vec::new();
    io::stdin().read_to_end(&mut journal)?;
    print!("{}", lines(&journal));
    if let Report::Round(round) = replay(&journal) {
        println!("records {}", round.records);
    }
    match finalizing(&journal) {
        Ok(records) => println!("finalizing precommits {}", records.len() / 22),
        Err(refusal) => println!("finalizing {refusal}"),
    }
    Ok(())
}
