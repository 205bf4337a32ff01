//! Which numbers each entry can answer with: that of a refusal, or 0 for none.

/// The greatest number of a refusal.
pub const GREATEST: usize = 44;

pub const HEADER: &[usize] = &[0, 1, 2, 3, 4];
pub const RECORD_READER: &[usize] = &[0, 5, 6, 19];
pub const WALK: &[usize] = &[0, 5, 6, 7, 8, 19];
pub const REPLAY: &[usize] = &[0, 1, 2, 3, 4, 5, 6, 7, 8, 9, 10, 11, 12, 13, 14, 19];
/// The program lends a whole table.
pub const REPLAY_PROGRAM: &[usize] = &[0, 1, 2, 3, 4, 5, 6, 7, 8, 9, 10, 11, 12, 13, 19];
/// Replay, of well-formed logs alone.
pub const REPLAY_WELL_FORMED: &[usize] = &[0, 9, 10, 11, 12, 13, 14];
/// Replay, of logs to which the clause about refused ones applies.
pub const REPLAY_REFUSED: &[usize] = &[5, 6, 7, 8, 9, 10, 11, 12, 13, 19];
pub const SCRUBBER: &[usize] = &[0, 1, 2, 3, 4, 5, 6, 7, 8, 19];
pub const RECORD_WRITER: &[usize] = &[0, 6, 15, 16];
pub const START: &[usize] = &[0, 15, 16];
pub const OPEN: &[usize] = &[0, 7, 15];
pub const ADD: &[usize] = &[0, 7, 15, 16];
pub const CLOSE: &[usize] = &[0, 7];
pub const TRANSITIONS: &[usize] = &[0, 14, 40, 41, 42, 43, 44];
/// A stream that a read or the end ends: the first of these alone by refusals.
pub const FEED: &[usize] = &[2, 3, 4, 5, 6, 7, 8, 9, 10, 11, 12, 13, 19];
pub const END: &[usize] = &[0, 1, 4];
pub const DCFG: &[usize] = &[0, 14, 30, 31, 32, 33, 34, 35, 36, 37, 38, 39];
