//! The Rust's recorded answers (oracle/README.md): lines of 735 journals, and the finalizing precommits after every vote of 115.
mod common;
use beamtassel::{finalizing, lines, replay, two_views, Refusal, Report};
use common::*;
use std::collections::HashMap;

#[test]
fn lines_and_figures() {
    let list = recorded("answers.bin");
    assert_eq!(list.len(), 735);
    for (journal, answer) in list {
        assert_eq!(lines(&journal), answer);
        assert_eq!(as_lines(&replay(&journal)), answer);
    }
}

// The finalizing precommits that a trace tells after each vote, by how many votes there were; none where nothing is final.
fn told(trace: &str) -> HashMap<usize, Option<Vec<u8>>> {
    let (mut found, mut votes, mut list) = (HashMap::new(), 0, None::<Vec<u8>>);
    for line in trace.lines() {
        let words: Vec<&str> = line.split(' ').collect();
        let number = |at: usize| words[at].parse::<u64>().unwrap();
        match words[0] {
            "vote" => votes = number(1) as usize,
            "finalizing" => list = (words[1] != "none").then(Vec::new),
            "Pc" => {
                let record = list.as_mut().unwrap();
                record.extend(precommit(number(1) as u32, number(2) as u32, number(3) as u32));
                let end = record.len();
                record[end - 8..].copy_from_slice(&number(4).to_le_bytes());
            }
            "history" => {
                found.insert(votes, list.clone());
            }
            _ => {}
        }
    }
    found
}

#[test]
fn finalizing_precommits() {
    let list = recorded("traces.bin");
    assert_eq!(list.len(), 115);
    let (mut compared, mut written, mut told_in_all) = (0, 0, 0);
    for (journal, trace) in list {
        let expected = told(&trace);
        let (mut votes, mut size) = (0, 0);
        for record in records(&journal).0 {
            size += record.len();
            if !matches!(&record[..2], b"Pv" | b"Pc") {
                continue;
            }
            votes += 1;
            let answer = finalizing(&journal[..size]);
            match expected.get(&votes) {
                Some(Some(list)) => assert_eq!(answer.as_ref(), Ok(list)),
                Some(None) => assert_eq!(answer, Err(Refusal::NOT_FINAL)),
                None => {
                    // The trace ends at a refused record.
                    assert!(matches!(replay(&journal[..size]), Report::Refused { .. }));
                    break;
                }
            }
            compared += 1;
            written += answer.is_ok() as usize;
        }
        told_in_all += expected.len();
    }
    assert_eq!(compared, told_in_all);
    assert!(0 < written);
}

#[test]
fn two_views_of_votes_in_another_order() {
    let (mut compared, mut differing, mut by_first_targets) = (0, 0, 0);
    for (journal, _) in recorded("answers.bin") {
        let Report::Round(round) = replay(&journal) else { continue };
        let (all, _) = records(&journal);
        let is_vote = |record: &&[u8]| record.starts_with(b"Pv") || record.starts_with(b"Pc");
        let blocks_first: Vec<&[u8]> = all.iter().copied().filter(|record| !is_vote(record)).collect();
        let backwards: Vec<&[u8]> =
            blocks_first.iter().copied().chain(all.iter().rev().copied().filter(is_vote)).collect();
        let other = backwards.concat();
        match replay(&other) {
            Report::Refused { refusal, .. } => assert_eq!(two_views(&journal, &other), Err(refusal)),
            Report::NoRound { .. } => panic!("the Op is there"),
            Report::Round(_) => {
                let sums = pairs::sums(&journal, &other);
                assert_eq!(sums.total, round.total);
                assert_eq!(two_views(&journal, &other), Ok(sums.sum));
                assert_eq!(two_views(&other, &journal), Ok(sums.sum));
                compared += 1;
                differing += (0 < sums.sum) as usize;
                by_first_targets += (0 < sums.first_targets) as usize;
            }
        }
    }
    assert!(300 < compared && 30 < differing, "{compared} compared, {differing} differing");
    assert!(by_first_targets < differing, "{by_first_targets} by first targets");
}
