//! Other spellings of a random day, for programs that look at several bytes at a
//! time: the same lines with their tabs and newlines at other places, and lines
//! between them that only a careless reader can read.
//!
//! None of it changes the answer to another line. The random numbers are its own,
//! so that a seed's day is the same day however it is spelled.

use crate::limits::{MOST_DIGITS, MOST_LINE_BYTES};
use crate::random::Random;

/// Bytes that may pass for a tab or a newline: beside them in value, alike but for
/// the top bit, or at the ends of what a byte can be. 8 and 11 come more often: behind
/// a tab or a newline a subtraction over a word borrows, and may find them as well.
const NEARLY: &[u8] = b"\x00\x01\x08\x08\x0b\x0b\x80\x88\x89\x8a\x8b\xff";

/// The same, and a tab where there should be none.
const OUT_OF_PLACE: &[u8] = b"\x00\x01\x08\x08\x0b\x0b\x80\x88\x89\x8a\x8b\xff\t\t\t\t";

/// On a day with odd lines one comes before every so many others.
const ODD_EVERY: u64 = 12;

/// Lengths about the limit.
const LEAST_LONG: u64 = MOST_LINE_BYTES as u64 - 4;
const MOST_LONG: u64 = MOST_LINE_BYTES as u64 + 6;

pub struct Spelling {
    random: Random,
    /// Zeros stand before some of the numbers.
    lengthens: bool,
    /// Odd lines stand between the others.
    odd: bool,
}

impl Spelling {
    pub fn new(seed: u64) -> Self {
        // Not the day's own numbers.
        let mut random = Random::new(!seed);
        Spelling {
            lengthens: random.once_in(2),
            odd: random.once_in(2),
            random,
        }
    }

    /// A line as it is written on this day: it says the same.
    pub fn of(&mut self, line: &[u8]) -> Vec<u8> {
        // A line that can be read stays short enough for that.
        let mut room = MOST_LINE_BYTES.saturating_sub(line.len());
        let mut fields = line.split(|&byte| byte == b'\t');
        let mut spelled = fields.next().unwrap_or_default().to_vec();
        for number in fields {
            let zeros = self.zeros_before(number).min(room);
            room -= zeros;
            spelled.push(b'\t');
            spelled.resize(spelled.len() + zeros, b'0');
            spelled.extend_from_slice(number);
        }
        spelled
    }

    fn zeros_before(&mut self, number: &[u8]) -> usize {
        let most = MOST_DIGITS.saturating_sub(number.len());
        if self.lengthens && !self.random.once_in(3) {
            self.random.place(most + 1)
        } else {
            0
        }
    }

    /// Now and then an odd line to stand before this one; it may be several.
    pub fn odd_before(&mut self, line: &[u8]) -> Option<Vec<u8>> {
        let wanted = self.odd && self.random.once_in(ODD_EVERY);
        wanted.then(|| self.odd_line(line))
    }

    /// The line with something odd about one of its separators, or empty lines.
    /// It cannot be read, as it has a byte that no line has or an empty field.
    fn odd_line(&mut self, line: &[u8]) -> Vec<u8> {
        let (before, rest) = line.split_at(self.some_tab(line));
        let behind = &rest[1..];
        let nearly = self.run_of(NEARLY);
        let run = self.run_of(OUT_OF_PLACE);
        match self.random.between(0, 11) {
            0..=2 => [before, &nearly, behind].concat(),
            3 => [before, &run, rest].concat(),
            4 | 5 => [before, b"\t", &run, behind].concat(),
            6 | 7 => [&run, line].concat(),
            8 => [line, &run].concat(),
            // In place of the newline between two lines.
            9 => [line, &run, line].concat(),
            10 => [line, b"\t", &run, line].concat(),
            _ => vec![b'\n'; self.random.place(9)],
        }
    }

    /// Lines that are spelled have numbers, so there is one.
    fn some_tab(&mut self, line: &[u8]) -> usize {
        let tabs = (0..line.len()).filter(|&place| line[place] == b'\t');
        let tabs: Vec<usize> = tabs.collect();
        self.random.pick(&tabs)
    }

    /// Mostly one byte; at times so many that a line with them is about as long as
    /// lines may be.
    fn run_of(&mut self, bytes: &[u8]) -> Vec<u8> {
        let r = &mut self.random;
        let length = match r.between(0, 31) {
            0 => r.between(LEAST_LONG - 8, MOST_LONG),
            1..=4 => r.between(7, 17),
            5..=9 => r.between(2, 6),
            _ => 1,
        };
        vec![r.pick(bytes); length as usize]
    }

    /// Lines before a farm is opened, about as long as lines may be: openings with
    /// too many allowances, refused with 3 where they can be read.
    pub fn long_lines(&mut self) -> Vec<Vec<u8>> {
        let most = if self.odd { 3 } else { 0 };
        let count = self.random.between(0, most);
        (0..count).map(|_| self.long_line()).collect()
    }

    fn long_line(&mut self) -> Vec<u8> {
        let r = &mut self.random;
        let length = r.between(LEAST_LONG, MOST_LONG) as usize;
        let mut line = b"farm\t2\t1\t2\t0\t0\t0".to_vec();
        while line.len() < length {
            line.push(b'\t');
            let left = length - line.len();
            // One byte left would be a tab at the end.
            let digits = match r.between(1, MOST_DIGITS as u64) as usize {
                _ if left <= MOST_DIGITS => left,
                digits if digits + 1 == left => digits - 1,
                digits => digits,
            };
            (0..digits).for_each(|_| line.push(r.pick(b"0123456789")));
        }
        if r.once_in(4) {
            let place = r.place(length);
            line[place] = r.pick(OUT_OF_PLACE);
        }
        line
    }

    /// A line of the day, broken off anywhere, at times to end the day with.
    pub fn broken_off(&mut self, day: &[u8]) -> Vec<u8> {
        let lines = day.split(|&byte| byte == b'\n');
        let lines: Vec<&[u8]> = lines.filter(|line| !line.is_empty()).collect();
        if !self.odd || lines.is_empty() || self.random.once_in(2) {
            return Vec::new();
        }
        let line = self.random.pick(&lines);
        let length = self.random.place(line.len()) + 1;
        line[..length].to_vec()
    }
}
