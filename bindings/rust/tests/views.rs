//! The two-view sum on pairs of generated journals of one round, beside the sum worked out from their bytes.
mod common;
use beamtassel::{replay, two_views, Report};
use common::pairs::{pair, sums, Dice};
use common::*;

#[test]
fn pairs_of_one_round() {
    let mut dice = Dice(2);
    let (mut by_first_targets, mut above, mut in_both, mut in_one, mut zero) = (0, 0, 0, 0, 0);
    for count in 0..40_000 {
        let (one, other) = pair(&mut dice);
        let sums = sums(&one, &other);
        let Report::Round(round) = replay(&one) else { panic!("pair {count}: {:?}", replay(&one)) };
        assert_eq!(round.total, sums.total);
        assert_eq!(two_views(&one, &other), Ok(sums.sum), "pair {count}");
        assert_eq!(two_views(&other, &one), Ok(sums.sum), "pair {count}");
        // A journal beside itself gives its equivocators.
        assert_eq!(two_views(&one, &one), Ok(sums.equivocators[0]), "pair {count}");
        assert_eq!(two_views(&other, &other), Ok(sums.equivocators[1]), "pair {count}");
        let [here, there] = sums.equivocators;
        by_first_targets += (sums.first_targets == sums.sum) as usize;
        above += (sums.fault() < here.max(there)) as usize;
        in_both += (0 < here.min(there)) as usize;
        in_one += (0 == here.min(there) && 0 < here.max(there)) as usize;
        zero += (0 == sums.sum) as usize;
    }
    println!("of 40000: {by_first_targets} by first targets too, {above} above F, equivocators {in_both} in both, {in_one} in one, {zero} zero");
    // First targets alone would be wrong on many.
    assert!(by_first_targets < 30_000, "{by_first_targets} by first targets too");
    assert!(5_000 < above && 10_000 < in_both && 2_000 < in_one && 1_000 < zero, "{above} {in_both} {in_one} {zero}");
}

// Document 02, R-3: four voters of weight 1, and 10 with 11 and 12 under it or one under the other. F is 1.
fn final_block(journal: &[u8]) -> u32 {
    match replay(journal) {
        Report::Round(round) => round.finalized.expect("a block is final").id,
        other => panic!("{other:?}"),
    }
}

#[test]
fn two_final_blocks() {
    let opening = |above_12, votes: [Vec<u8>; 2]| {
        let voters = (1..=4).flat_map(|id| voter(id, 1)).collect();
        [voters, root(10, 0), block(11, 10), block(12, above_12), open(7, 10), votes.concat()].concat()
    };
    // 11 and 12 under 10. Voters 2 and 3 equivocate, and their first targets are the same in both views.
    let fork = |votes| opening(10, votes);
    let prevotes = |target| (1..=3).flat_map(|id| prevote(id, target, 1)).collect();
    let pc = |voter, target| precommit(voter, target, 1);
    let one = fork([prevotes(11), [pc(1, 11), pc(2, 11), pc(2, 12), pc(3, 12), pc(3, 11)].concat()]);
    let other = fork([prevotes(12), [pc(2, 11), pc(2, 12), pc(3, 12), pc(4, 12)].concat()]);
    assert_eq!((final_block(&one), final_block(&other)), (11, 12));
    assert_eq!(two_views(&one, &other), Ok(2));
    assert_eq!(sums(&one, &other).first_targets, 0);
    // 12 under 11: one line, and nobody differs.
    let line = |votes| opening(11, votes);
    let prevotes = || (1..=3).flat_map(|id| prevote(id, 12, 2)).collect();
    let pc = |voter| precommit(voter, 12, 2);
    let one = line([prevotes(), [pc(1), pc(2), pc(3)].concat()]);
    let other = line([prevotes(), [pc(2), pc(3), precommit(4, 11, 1)].concat()]);
    assert_eq!((final_block(&one), final_block(&other)), (12, 11));
    assert_eq!(two_views(&one, &other), Ok(0));
}
