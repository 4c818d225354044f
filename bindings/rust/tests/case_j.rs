//! Document 01's case J and its variants, and what it says of weights.
mod common;
use beamtassel::{finalizing, lines, replay, two_views, Block, Refusal, Report, Round};
use common::*;

fn round(journal: &[u8]) -> Round {
    match replay(journal) {
        Report::Round(round) => round,
        other => panic!("{other:?}"),
    }
}

#[test]
fn the_whole_case() {
    let journal = case_j();
    assert_eq!(journal.len(), 264);
    assert_eq!(lines(&journal), LINES_J);
    let expected = Round {
        records: 16,
        tail: 0,
        number: 7,
        total: 4,
        threshold: 3,
        prevote_weight: 4,
        precommit_weight: 3,
        prevoters: 4,
        precommitters: 3,
        ghost: Some(Block { id: 12, number: 2 }),
        estimate: Some(Block { id: 12, number: 2 }),
        finalized: Some(Block { id: 11, number: 1 }),
        completable: true,
    };
    assert_eq!(replay(&journal), Report::Round(expected));
    assert_eq!(finalizing(&journal), Ok([precommit(1, 12, 2), precommit(2, 12, 2), precommit(3, 11, 1)].concat()));
}

#[test]
fn after_three_prevotes() {
    let journal = [opened(7), prevotes()[..66].to_vec()].concat();
    let told = round(&journal);
    assert_eq!(told.ghost, Some(Block { id: 11, number: 1 }));
    assert_eq!(told.estimate, Some(Block { id: 11, number: 1 }));
    assert_eq!((told.finalized, told.completable), (None, false));
    assert_eq!(finalizing(&journal), Err(Refusal::NOT_FINAL));
}

#[test]
fn a_second_precommit() {
    let journal = [case_j(), precommit(3, 13, 2)].concat();
    assert_eq!(round(&journal).finalized, Some(Block { id: 12, number: 2 }));
    let both = [precommit(1, 12, 2), precommit(2, 12, 2), precommit(3, 11, 1), precommit(3, 13, 2)].concat();
    assert_eq!(finalizing(&journal), Ok(both));
}

#[test]
fn other_precommits() {
    let mut journal = [opened(7), prevotes(), precommit(1, 12, 2), precommit(2, 11, 1), precommit(3, 13, 2)].concat();
    assert_eq!(round(&journal).estimate, Some(Block { id: 12, number: 2 }));
    journal.extend(precommit(4, 11, 1));
    let told = round(&journal);
    assert_eq!(told.estimate, Some(Block { id: 11, number: 1 }));
    assert!(told.completable);
}

#[test]
fn thresholds_and_the_greatest_total() {
    for (total, threshold) in
        [(1, 1), (2, 2), (3, 3), (4, 3), (5, 4), (6, 5), (7, 5), (10, 7), (u64::MAX, 12297829382473034411)]
    {
        let told = round(&[voter(1, total), root(10, 0), open(1, 10)].concat());
        assert_eq!((told.total, told.threshold), (total, threshold));
    }
    let over = [voter(1, u64::MAX), voter(2, 1), root(10, 0)].concat();
    assert_eq!(lines(&over), "refused 2 at 3\n");
}

#[test]
fn sixty_four_voters_and_256_blocks() {
    let voters = |count| (1..=count).flat_map(|id| voter(id, 1)).collect::<Vec<u8>>();
    let full: Vec<u8> = (1..256).flat_map(|id| block(id, id - 1)).collect();
    let journal = [voters(64), root(0, 0), full, open(1, 0)].concat();
    assert_eq!(round(&journal).total, 64);
    assert_eq!(lines(&[journal, block(256, 0)].concat()), "refused 8 at 322\n");
    assert_eq!(lines(&[voters(65), root(0, 0)].concat()), "refused 4 at 66\n");
}

#[test]
fn two_views_of_it() {
    let journal = case_j();
    let other =
        [opened(7), prevotes(), precommit(1, 12, 2), precommit(2, 13, 2), precommit(3, 13, 2), precommit(4, 11, 1)]
            .concat();
    // Voters 2 and 3 differ; 4 is silent in the first.
    assert_eq!(two_views(&journal, &other), Ok(2));
    assert_eq!(two_views(&other, &journal), Ok(2));
    assert_eq!(two_views(&journal, &journal), Ok(0));
    // A voter who precommitted twice counts, once, in either view or in both, whatever the other has of it.
    let twice = [journal.clone(), precommit(3, 13, 2)].concat();
    assert_eq!(two_views(&journal, &twice), Ok(1));
    assert_eq!(two_views(&twice, &journal), Ok(1));
    assert_eq!(two_views(&twice, &twice), Ok(1));
    assert_eq!(two_views(&twice, &other), Ok(2));
    assert_eq!(two_views(&twice, &[opened(7), prevotes()].concat()), Ok(1));
    // So does one under two signatures for one target, in one view; not one vote each for it, under different signatures.
    let signed = [journal.clone(), vote(b"Pc", 3, 11, 1, 5)].concat();
    assert_eq!(two_views(&journal, &signed), Ok(1));
    let resigned = [opened(7), prevotes(), vote(b"Pc", 3, 11, 1, 5)].concat();
    assert_eq!(two_views(&journal, &resigned), Ok(0));
    // Prevotes never count.
    assert_eq!(two_views(&journal, &[journal.clone(), prevote(3, 12, 2)].concat()), Ok(0));
}

// Document 02, R-2, each voter with a weight of its own: the same target, another, silent in one view, an equivocator beside the same first
// target, an equivocator beside silence.
#[test]
fn five_kinds_in_one_sum() {
    let opening = |votes: Vec<u8>| {
        let mut journal: Vec<u8> =
            [1, 2, 4, 8, 16].iter().zip(1..).flat_map(|(weight, id)| voter(id, *weight)).collect();
        journal.extend([root(10, 0), block(11, 10), block(12, 10), open(7, 10), votes].concat());
        journal
    };
    let pc = |voter, target| precommit(voter, target, 1);
    let one = opening([pc(1, 11), pc(2, 11), pc(3, 12), pc(4, 11), pc(4, 12)].concat());
    let other = opening([pc(1, 11), pc(2, 12), pc(4, 11), pc(5, 11), pc(5, 12)].concat());
    assert_eq!(two_views(&one, &other), Ok(2 + 8 + 16));
    assert_eq!(two_views(&other, &one), Ok(2 + 8 + 16));
    assert_eq!(two_views(&one, &one), Ok(8));
    assert_eq!(two_views(&other, &other), Ok(16));
    assert_eq!(pairs::sums(&one, &other).first_targets, 2);
}

#[test]
fn journals_that_are_not_of_one_round() {
    let journal = case_j();
    let differ = |other: &[u8]| {
        assert_eq!(two_views(&journal, other), Err(Refusal::NOT_ONE_ROUND));
        assert_eq!(two_views(other, &journal), Err(Refusal::NOT_ONE_ROUND));
    };
    differ(&opened(8));
    differ(&[journal.clone(), block(14, 13)].concat());
    differ(&[voter(1, 1), voter(2, 1), root(10, 0), block(11, 10), block(12, 11), block(13, 11), open(7, 10)].concat());
    // No round in one of them, or in either.
    differ(&opened(7)[..100]);
    assert_eq!(two_views(b"", b""), Err(Refusal::NOT_ONE_ROUND));
    assert_eq!(finalizing(b""), Err(Refusal::NOT_FINAL));
}

#[test]
fn a_refused_journal_tells_its_own_number() {
    let journal = case_j();
    let unknown = [journal.clone(), b"Xx".to_vec()].concat();
    let late = [journal.clone(), voter(9, 1)].concat();
    let nine = |refused: &[u8], number: u8, at: u64| {
        assert_eq!(lines(refused), format!("refused {number} at {at}\n"));
        assert!(
            matches!(replay(refused), Report::Refused { refusal, record } if refusal.number() == number && record == at)
        );
        assert_eq!(finalizing(refused).map_err(Refusal::number), Err(number));
        assert_eq!(two_views(refused, &journal).map_err(Refusal::number), Err(number));
        assert_eq!(two_views(&journal, refused).map_err(Refusal::number), Err(number));
        // It comes before what is said of a journal without a round.
        assert_eq!(two_views(b"", refused).map_err(Refusal::number), Err(number));
    };
    nine(&unknown, 17, 17);
    nine(&late, 18, 17);
    assert_eq!(two_views(&unknown, &late).map_err(Refusal::number), Err(17));
    assert_eq!(two_views(&late, &unknown).map_err(Refusal::number), Err(18));
}
