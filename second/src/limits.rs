//! The paper's table of quantities.

/// The last tick; also the greatest deadline and the greatest allowance.
pub const LAST_TICK: u64 = 1_000_000_000_000;
pub const MOST_NODES: usize = 64;
pub const MOST_SEND_COST: u64 = 10_000;
pub const MOST_COMPUTE_COST: u64 = 1_000_000;
pub const MOST_SETUP: u64 = 1_000_000;
pub const MOST_RETURN_COST: u64 = 10_000;
pub const MOST_SHOWS: usize = 32;
pub const MOST_UNITS: u64 = 1_000_000;
pub const MOST_WAITING: usize = 128;
/// Job numbers run from 1 to this one.
pub const MOST_JOB_NUMBERS: u64 = 1_000_000_000_000;
/// Chunk records the program lends to a clock move.
pub const LENT_RECORDS: usize = 1_024;
/// Bytes of a line before its newline.
pub const MOST_LINE_BYTES: usize = 1_024;
/// Digits of a number in a line.
pub const MOST_DIGITS: usize = 13;
