//! Every call on the recorded journals, in a thread with little stack: what the header names, and 24 KiB for the thread itself.
mod common;
use beamtassel::{finalizing, lines, replay, two_views};
use std::thread;

#[test]
fn a_thread_with_little_stack() {
    let list = common::recorded("answers.bin");
    let calls = move || {
        let mut finals = 0;
        for (journal, answer) in &list {
            replay(journal);
            assert_eq!(lines(journal), *answer);
            finals += finalizing(journal).is_ok() as usize;
            let _ = two_views(journal, journal);
        }
        finals
    };
    let finals = thread::Builder::new().stack_size(262144 + 24 * 1024).spawn(calls).unwrap().join().unwrap();
    assert!(0 < finals);
}
