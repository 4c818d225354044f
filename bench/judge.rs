//! The Rust's side of the benchmark. bench/run puts this file under oracle/driver.rs in a copy of the
//! judge, because the driver's parts are its own.

use super::{run, Telling};
use alloc::string::String;

/// Numbers of a report, at the places that `beamtassel_replay` writes them to (include/beamtassel.h).
pub type Numbers = [u64; 22];

fn block(at: usize, block: Option<(u32, u32)>, numbers: &mut Numbers) {
    if let Some((id, number)) = block {
        numbers[at] = 1;
        numbers[at + 1] = id as u64;
        numbers[at + 2] = number as u64;
    }
}

/// Replays a journal from memory and tells what its last lines would; the Rust's memory is given
/// back before this returns.
pub fn replay(journal: &[u8], numbers: &mut Numbers) {
    let end = run(journal, Telling::Last, false, &mut String::new());
    *numbers = [0; 22];
    numbers[3] = end.records;
    if let Some(number) = end.refused {
        numbers[0] = 2;
        numbers[1] = number as u64;
        numbers[2] = end.records + 1;
        return;
    }
    numbers[4] = end.tail as u64;
    let Some(round) = &end.judge.round else {
        numbers[0] = 1;
        return;
    };
    numbers[5] = round.number();
    numbers[6] = round.voters().total_weight().get();
    numbers[7] = round.threshold().get();
    let (prevote, prevoters) = round.prevote_participation();
    let (precommit, precommitters) = round.precommit_participation();
    numbers[8] = prevote.0;
    numbers[9] = precommit.0;
    numbers[10] = prevoters as u64;
    numbers[11] = precommitters as u64;
    let state = round.state();
    block(12, state.prevote_ghost, numbers);
    block(15, state.estimate, numbers);
    block(18, state.finalized, numbers);
    numbers[21] = state.completable as u64;
}
