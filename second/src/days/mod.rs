//! Seeded random days, to compare programs on.
//!
//! The writer of a day runs it as it goes, so that it can aim at the edges:
//! the tick at which a job begins, the least deadline that is granted, the
//! withdrawal after which an old job fails in the next walk, the allowance that is
//! just used up.

mod allowances;
mod costs;
mod damage;
mod full;
mod kinds;
mod needed;
mod odd_fields;
mod offers;
mod openings;
mod quotes;
mod refused;
mod withdrawals;
mod writing;

pub use openings::farm_numbers;

use crate::program::Session;
use crate::quick::Quick;
use crate::random::Random;
use crate::spelling::Spelling;
use std::ops::Range;

/// The kinds of day, in turn.
const KINDS: u64 = 8;

/// A number of the greatest length a line may have.
const LONGEST: u64 = 9_999_999_999_999;

/// The bytes of one day.
pub fn day(seed: u64) -> Vec<u8> {
    let mut day = Day::new(seed);
    if day.random.once_in(200) {
        return Vec::new();
    }
    for line in day.spelling.long_lines() {
        day.raw(&line);
    }
    if day.random.once_in(3) {
        day.before_opening();
    }
    match seed % KINDS {
        0 => day.tiny(),
        1 => day.tight(),
        2 => day.near_limits(),
        3 => day.full_queue(),
        4 => day.full_timetable(),
        5 => day.damaged(),
        6 => day.openings(),
        _ => day.middling(),
    }
    day.end()
}

/// A day so small that the exhaustive walk can run it.
pub fn tiny_day(seed: u64) -> Vec<u8> {
    let mut day = Day::new(seed);
    day.tiny();
    day.end()
}

/// A day under way.
struct Day {
    random: Random,
    bytes: Vec<u8>,
    session: Session<Quick>,
    /// Some offers carry a compute cost.
    mixed: bool,
    /// Some jobs are withdrawn: in half of the days of each kind.
    withdrawing: bool,
    /// Audio takes time to come back.
    returning: bool,
    /// Some offers are quoted: in three of four days of each kind, with and
    /// without withdrawals.
    quoting: bool,
    /// So small that the exhaustive walk can run it.
    tiny: bool,
    /// Where the line that opened the farm stands among the bytes.
    opening: Option<Range<usize>>,
    /// Each show whose account was asked for, and what it held then.
    asked: Vec<(u64, u64)>,
    spelling: Spelling,
}

impl Day {
    fn new(seed: u64) -> Self {
        let mut random = Random::new(seed);
        Day {
            mixed: !random.once_in(4),
            withdrawing: seed / KINDS % 2 == 1,
            returning: !random.once_in(5),
            quoting: seed / (2 * KINDS) % 4 != 3,
            tiny: false,
            opening: None,
            asked: Vec::new(),
            spelling: Spelling::new(seed),
            random,
            bytes: Vec::new(),
            session: Session::default(),
        }
    }

    /// The day's bytes, sometimes without the last newline.
    fn end(mut self) -> Vec<u8> {
        if self.random.once_in(4) {
            self.bytes.pop();
        } else {
            let last = self.spelling.broken_off(&self.bytes);
            self.bytes.extend_from_slice(&last);
        }
        self.write_allowances();
        self.bytes
    }
}
