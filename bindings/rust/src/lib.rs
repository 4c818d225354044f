//! The counting of one GRANDPA round, replayed from a journal's bytes.
//!
//! A journal is a desk's record of voters, blocks and votes. The functions here replay one and tell what the desk knew at its end. Each is
//! a safe wrapper of a function of libbeamtassel.a, which is proved to do what its definition says for any bytes whatever; the definitions
//! are in the repository's `crates/beamtassel/specs/Calls.antt`.
//!
//! [`replay`], [`lines`], [`finalizing`] and [`two_views`] hand back values. Each has a form that writes into a buffer of the caller and
//! allocates nothing: [`replay_into`], [`lines_into`], [`finalizing_into`], [`two_views_into`].
//!
//! ```
//! use beamtassel::{replay, Report};
//!
//! // Two voters of weight 1, the root block 10 of number 0, and no Op yet.
//! let mut journal = Vec::new();
//! for voter in 1u32..=2 {
//!     journal.extend_from_slice(b"Vt");
//!     journal.extend_from_slice(&voter.to_le_bytes());
//!     journal.extend_from_slice(&1u64.to_le_bytes());
//! }
//! journal.extend_from_slice(b"Rt");
//! journal.extend_from_slice(&10u32.to_le_bytes());
//! journal.extend_from_slice(&0u32.to_le_bytes());
//! assert_eq!(replay(&journal), Report::NoRound { records: 3, tail: 0 });
//! ```
#![warn(missing_docs)]

use std::error::Error;
use std::fmt;

mod raw {
    extern "C" {
        pub fn beamtassel_replay(journal: *const u8, journal_length: usize, out: *mut u8, out_length: usize) -> u64;
        pub fn beamtassel_print(journal: *const u8, journal_length: usize, out: *mut u8, out_length: usize) -> u64;
        pub fn beamtassel_finalizing(journal: *const u8, journal_length: usize, out: *mut u8, out_length: usize)
            -> u64;
        pub fn beamtassel_two_views(
            first: *const u8,
            first_length: usize,
            second: *const u8,
            second_length: usize,
            out: *mut u8,
            out_length: usize,
        ) -> u64;
        pub fn beamtassel_version() -> u64;
    }
}

/// The version of the archive that is linked, as `major.minor.patch`.
pub fn version() -> String {
    // SAFETY: it takes nothing and returns a constant.
    let number = unsafe { raw::beamtassel_version() };
    format!("{}.{}.{}", number / 1_000_000, number / 1_000 % 1_000, number % 1_000)
}

/// The bytes that [`replay_into`] writes.
pub const REPORT_BYTES: usize = 176;
/// No text of [`lines_into`] is longer.
pub const LINES_BYTES: usize = 512;
/// No list of [`finalizing_into`] is longer: two precommits of 64 voters, 22 bytes each.
pub const FINALIZING_BYTES: usize = 2816;
/// The bytes that [`two_views_into`] writes.
pub const WEIGHT_BYTES: usize = 8;

/// A refusal, by its number in docs/RULES.md, "Refusal numbers", which are document 01's.
#[derive(Clone, Copy, Debug, PartialEq, Eq, Hash)]
pub struct Refusal(u8);

impl Refusal {
    /// The buffer is too short for all that is to be written.
    pub const SHORT: Refusal = Refusal(14);
    /// There is no round, or nothing in it is final.
    pub const NOT_FINAL: Refusal = Refusal(15);
    /// Two journals differ in round, voters, base or block table, or one has no round.
    pub const NOT_ONE_ROUND: Refusal = Refusal(16);

    /// The number: 1 to 18.
    pub fn number(self) -> u8 {
        self.0
    }
}

impl fmt::Display for Refusal {
    fn fmt(&self, f: &mut fmt::Formatter<'_>) -> fmt::Result {
        let reason = match self.0 {
            1 => "more than 256 voter records",
            2 => "the sum of all weights is over 2^64 - 1",
            3 => "no non-zero weight",
            4 => "more than 64 voters of non-zero weight",
            5 => "block id already in the table",
            6 => "parent not in the table",
            7 => "the parent's number is 4294967295",
            8 => "256 blocks present",
            10 => "base not in the table",
            11 => "a first vote's target is unknown",
            12 => "a first vote's number is wrong",
            13 => "a first vote's target is not at or below the base",
            14 => "the buffer is too short",
            15 => "nothing is final",
            16 => "the journals are not of one round",
            17 => "unknown mark",
            18 => "record out of turn",
            _ => "not in document 01",
        };
        write!(f, "refused {}: {}", self.0, reason)
    }
}

impl Error for Refusal {}

/// A block by id and number.
#[derive(Clone, Copy, Debug, PartialEq, Eq, Hash)]
pub struct Block {
    /// Its id.
    pub id: u32,
    /// Its number: the root's and one more for each step down.
    pub number: u32,
}

/// What a journal's round has come to.
#[derive(Clone, Copy, Debug, PartialEq, Eq)]
pub struct Round {
    /// Records taken.
    pub records: u64,
    /// Bytes of a record that was cut off at the journal's end.
    pub tail: u64,
    /// The round's number.
    pub number: u64,
    /// Weight of all voters.
    pub total: u64,
    /// The weight that decides.
    pub threshold: u64,
    /// Weight heard in prevotes.
    pub prevote_weight: u64,
    /// Weight heard in precommits.
    pub precommit_weight: u64,
    /// Voters heard in prevotes.
    pub prevoters: u64,
    /// Voters heard in precommits.
    pub precommitters: u64,
    /// The block that the prevotes stand behind.
    pub ghost: Option<Block>,
    /// The last block that can still become final in this round.
    pub estimate: Option<Block>,
    /// The block that is final.
    pub finalized: Option<Block>,
    /// Whether the next round may begin.
    pub completable: bool,
}

/// What a journal tells.
#[derive(Clone, Copy, Debug, PartialEq, Eq)]
pub enum Report {
    /// A round.
    Round(Round),
    /// The journal ends before its round was opened.
    NoRound {
        /// Records taken.
        records: u64,
        /// Bytes of a record that was cut off at the journal's end.
        tail: u64,
    },
    /// A record was refused, and nothing after it was read.
    Refused {
        /// The reason.
        refusal: Refusal,
        /// The record, counted from 1.
        record: u64,
    },
}

// A call's result: bytes written, or 2^32 and the number of a refusal.
fn answer(result: u64) -> Result<usize, Refusal> {
    match result.checked_sub(1 << 32) {
        None => Ok(result as usize),
        Some(number) => Err(Refusal(number as u8)),
    }
}

/// Writes what a journal tells as 22 numbers of eight bytes, little-endian, from the start of `out`: outcome (0 a round, 1 none, 2
/// refused), refusal, refused record, records, tail, round, total, threshold, both heard weights, both numbers of voters, then known, id
/// and number of GHOST, of estimate and of the final block, and completable. What stands after them stays.
///
/// A journal that is refused is no refusal of this call.
///
/// # Errors
/// [`Refusal::SHORT`] if `out` has fewer than [`REPORT_BYTES`] bytes; then it is as it was.
pub fn replay_into(journal: &[u8], out: &mut [u8]) -> Result<usize, Refusal> {
    // SAFETY: both are slices, one of them lent alone, so that pointers and lengths are right and the bytes do not overlap.
    answer(unsafe { raw::beamtassel_replay(journal.as_ptr(), journal.len(), out.as_mut_ptr(), out.len()) })
}

/// Writes document 01's lines of a journal from the start of `out`; what stands after them stays.
///
/// # Errors
/// [`Refusal::SHORT`] if `out` is too short; then it is as it was. [`LINES_BYTES`] are always enough.
pub fn lines_into(journal: &[u8], out: &mut [u8]) -> Result<usize, Refusal> {
    // SAFETY: as in `replay_into`.
    answer(unsafe { raw::beamtassel_print(journal.as_ptr(), journal.len(), out.as_mut_ptr(), out.len()) })
}

/// Writes the precommits that make a journal's block final, as Pc records of 22 bytes, from the start of `out`; what stands after them
/// stays.
///
/// # Errors
/// The journal's own refusal; [`Refusal::NOT_FINAL`]; [`Refusal::SHORT`], in this order. Then `out` is as it was. [`FINALIZING_BYTES`] are
/// always enough.
pub fn finalizing_into(journal: &[u8], out: &mut [u8]) -> Result<usize, Refusal> {
    // SAFETY: as in `replay_into`.
    answer(unsafe { raw::beamtassel_finalizing(journal.as_ptr(), journal.len(), out.as_mut_ptr(), out.len()) })
}

/// Writes the two-view sum of two journals as eight bytes, little-endian, from the start of `out`; what stands after them stays.
///
/// # Errors
/// The first journal's own refusal; the second's; [`Refusal::NOT_ONE_ROUND`]; [`Refusal::SHORT`], in this order. Then `out` is as it was.
pub fn two_views_into(first: &[u8], second: &[u8], out: &mut [u8]) -> Result<usize, Refusal> {
    // SAFETY: as in `replay_into`; the journals are only read, and may be one.
    answer(unsafe {
        raw::beamtassel_two_views(
            first.as_ptr(),
            first.len(),
            second.as_ptr(),
            second.len(),
            out.as_mut_ptr(),
            out.len(),
        )
    })
}

/// Replays a journal.
pub fn replay(journal: &[u8]) -> Report {
    let mut out = [0; REPORT_BYTES];
    replay_into(journal, &mut out).expect("the buffer has room");
    let figure = |place: usize| {
        let mut bytes = [0; 8];
        bytes.copy_from_slice(&out[8 * place..8 * place + 8]);
        u64::from_le_bytes(bytes)
    };
    let block = |place: usize| {
        let block = Block { id: figure(place + 1) as u32, number: figure(place + 2) as u32 };
        (figure(place) == 1).then_some(block)
    };
    match figure(0) {
        0 => Report::Round(Round {
            records: figure(3),
            tail: figure(4),
            number: figure(5),
            total: figure(6),
            threshold: figure(7),
            prevote_weight: figure(8),
            precommit_weight: figure(9),
            prevoters: figure(10),
            precommitters: figure(11),
            ghost: block(12),
            estimate: block(15),
            finalized: block(18),
            completable: figure(21) == 1,
        }),
        1 => Report::NoRound { records: figure(3), tail: figure(4) },
        _ => Report::Refused { refusal: Refusal(figure(1) as u8), record: figure(2) },
    }
}

/// Document 01's lines of a journal, each with a newline at its end.
pub fn lines(journal: &[u8]) -> String {
    let mut out = [0; LINES_BYTES];
    let size = lines_into(journal, &mut out).expect("the buffer has room");
    String::from_utf8_lossy(&out[..size]).into_owned()
}

/// The precommits that make a journal's block final, as Pc records of 22 bytes: by rising voter, those at or below the block, and both of
/// every voter who precommitted twice.
///
/// # Errors
/// The journal's own refusal, or [`Refusal::NOT_FINAL`].
pub fn finalizing(journal: &[u8]) -> Result<Vec<u8>, Refusal> {
    let mut out = [0; FINALIZING_BYTES];
    let size = finalizing_into(journal, &mut out)?;
    Ok(out[..size].to_vec())
}

/// The weight of the voters, each once, who precommitted twice in either of two journals of one round, another signature for the same block
/// included, or who precommitted in both for blocks that differ in id. A voter silent in both adds nothing, and neither does one heard once in
/// one of them and not in the other. A journal beside itself gives the weight of the voters who precommitted twice in it.
///
/// Where each journal has a final block and neither block is the other or its ancestor, the weight is above the fault weight, `(total - 1) / 3`.
/// It tells how much weight contradicted itself, and not who; a weight above the fault weight alone does not mean two final blocks.
///
/// # Errors
/// The first journal's own refusal; the second's; [`Refusal::NOT_ONE_ROUND`], in this order. The last is also the answer for journals that
/// learned the same blocks in another order.
pub fn two_views(first: &[u8], second: &[u8]) -> Result<u64, Refusal> {
    let mut out = [0; WEIGHT_BYTES];
    two_views_into(first, second, &mut out)?;
    Ok(u64::from_le_bytes(out))
}
