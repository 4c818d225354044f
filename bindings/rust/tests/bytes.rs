//! Journals cut at every byte and damaged in every byte, and buffers of every length.
mod common;
use beamtassel::{
    finalizing, finalizing_into, lines, lines_into, replay, replay_into, two_views, two_views_into, Refusal, Report,
};
use common::*;

#[test]
fn cut_at_every_byte() {
    let journal = case_j();
    for cut in 0..=journal.len() {
        let (whole, tail) = records(&journal[..cut]);
        let (taken, left) = (whole.len() as u64, tail.len() as u64);
        let before: Vec<u8> = whole.concat();
        match (replay(&journal[..cut]), replay(&before)) {
            (Report::NoRound { records, tail }, Report::NoRound { records: of, tail: none }) => {
                assert!(taken < 9);
                assert_eq!((records, tail, of, none), (taken, left, taken, 0));
            }
            (Report::Round(mut cut), Report::Round(whole)) => {
                assert!(9 <= taken);
                assert_eq!((cut.records, cut.tail), (taken, left));
                cut.tail = 0;
                assert_eq!(cut, whole);
            }
            other => panic!("{other:?}"),
        }
        assert_eq!(lines(&journal[..cut]), as_lines(&replay(&journal[..cut])));
        assert_eq!(finalizing(&journal[..cut]), finalizing(&before));
    }
}

#[test]
fn damaged_in_every_byte() {
    let journal = [case_j(), precommit(3, 13, 2), block(14, 12)].concat();
    for at in 0..journal.len() {
        for change in 1..=255 {
            let mut damaged = journal.clone();
            damaged[at] ^= change;
            let told = replay(&damaged);
            assert_eq!(lines(&damaged), as_lines(&told));
            // The other calls refuse as the report says.
            match told {
                Report::Refused { refusal, record } => {
                    assert!((1..=19).contains(&record));
                    assert_eq!(finalizing(&damaged), Err(refusal));
                    assert_eq!(two_views(&damaged, &journal), Err(refusal));
                }
                Report::NoRound { .. } => {
                    assert_eq!(finalizing(&damaged), Err(Refusal::NOT_FINAL));
                    assert_eq!(two_views(&damaged, &journal), Err(Refusal::NOT_ONE_ROUND));
                }
                Report::Round(round) => assert_eq!(finalizing(&damaged).is_ok(), round.finalized.is_some()),
            }
        }
    }
}

// Every length up to a few bytes past what is needed: refused and untouched, or written and the rest as it was.
fn every_length(needed: usize, call: impl Fn(&mut [u8]) -> Result<usize, Refusal>) {
    let mut whole = vec![0; needed];
    assert_eq!(call(&mut whole), Ok(needed));
    for length in 0..needed + 40 {
        let mut out = vec![0xa5; length];
        if length < needed {
            assert_eq!(call(&mut out), Err(Refusal::SHORT));
            assert_eq!(out, vec![0xa5; length]);
        } else {
            assert_eq!(call(&mut out), Ok(needed));
            assert_eq!(out[..needed], whole);
            assert_eq!(out[needed..], vec![0xa5; length - needed]);
        }
    }
}

#[test]
fn buffers_of_every_length() {
    let journal = case_j();
    for journal in [&journal[..], &journal[..100], b"", b"Xx"] {
        every_length(176, |out| replay_into(journal, out));
        every_length(lines(journal).len(), |out| lines_into(journal, out));
    }
    every_length(66, |out| finalizing_into(&journal, out));
    every_length(8, |out| two_views_into(&journal, &journal, out));
}

#[test]
fn other_refusals_leave_a_buffer_too() {
    let journal = case_j();
    let refused = [journal.clone(), b"Xx".to_vec()].concat();
    for length in [0, 8, 176, 3000] {
        let mut out = vec![0xa5; length];
        assert_eq!(finalizing_into(&refused, &mut out).map_err(Refusal::number), Err(17));
        assert_eq!(finalizing_into(&journal[..200], &mut out), Err(Refusal::NOT_FINAL));
        assert_eq!(two_views_into(&refused, &journal, &mut out).map_err(Refusal::number), Err(17));
        assert_eq!(two_views_into(&journal, &opened(8), &mut out), Err(Refusal::NOT_ONE_ROUND));
        assert_eq!(out, vec![0xa5; length]);
    }
}

#[test]
fn the_longest_lists() {
    // 64 voters, each of whom precommits twice, and numbers of many digits.
    let last = u32::MAX - 64;
    let weight = u64::MAX / 64;
    let mut journal: Vec<u8> = (0..64).flat_map(|k| voter(last + k, weight)).collect();
    journal.extend(
        [root(u32::MAX - 1, u32::MAX - 1), block(u32::MAX, u32::MAX - 1), open(u64::MAX, u32::MAX - 1)].concat(),
    );
    for vote in [prevote, precommit] {
        journal.extend((0..64).flat_map(|k| vote(last + k, u32::MAX, u32::MAX)));
        journal.extend((0..64).flat_map(|k| vote(last + k, u32::MAX - 1, u32::MAX - 1)));
    }
    assert_eq!(lines(&journal), as_lines(&replay(&journal)));
    assert_eq!(finalizing(&journal).unwrap().len(), beamtassel::FINALIZING_BYTES);
}
