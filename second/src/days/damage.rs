//! Damaged lines.

use super::openings::farm_line;
use super::Day;
use crate::farm::Offer;
use crate::share::Costs;
use crate::text::line;

impl Day {
    /// A line with something wrong in it, mostly: some damage is harmless.
    pub(super) fn damaged_line(&mut self) {
        if self.mixed && self.random.once_in(4) {
            return self.odd_compute();
        }
        if self.withdraws_once_in(4) {
            return self.odd_withdrawal();
        }
        if self.quotes_once_in(4) {
            return self.odd_quote();
        }
        let mut line = self.good_line();
        for _ in 0..self.random.pick(&[1, 1, 1, 2, 3]) {
            self.damage(&mut line);
        }
        self.raw(&line);
    }

    fn good_line(&mut self) -> Vec<u8> {
        if self.withdraws_once_in(4) {
            let job = self.some_waiting().unwrap_or(1);
            return line(b"withdraw", &[job]);
        }
        let show = self.some_show();
        let compute = self.some_compute();
        let time = self.session.clock() + self.random.between(0, 3);
        match self.random.between(0, 3) {
            0 => farm_line(2, Costs::new(1, 2, 3, 4, 5), &[6, 7]),
            1 => {
                let offer = Offer::new(show, 1 + time % 9, time + 1_000).with_compute(compute);
                line(self.kind_of_offer(), &offer.fields())
            }
            2 => line(b"clock", &[time]),
            _ => line(b"account", &[show]),
        }
    }

    fn damage(&mut self, line: &mut Vec<u8>) {
        let r = &mut self.random;
        let odd = r.pick(b"\0\r\t\t \n-+.,:/0aZ\x7f\x80\xff");
        let place = r.place(line.len() + 1);
        match r.between(0, 11) {
            0 => line.insert(place, odd),
            1 => line.insert(place, r.word() as u8),
            2 => line.truncate(place),
            3 if place < line.len() => line[place] = odd,
            4 if place < line.len() => drop(line.remove(place)),
            5 => line.extend_from_slice(r.pick(&[b"\t".as_slice(), b"\r", b" ", b"\t\t", b"\t7"])),
            6 => lengthen_number(line, place, 13),
            7 => lengthen_number(line, place, 14),
            8 => line.make_ascii_uppercase(),
            9 => (0..r.place(30)).for_each(|_| line.push(r.word() as u8)),
            10 if r.once_in(3) => *line = self.long_line(),
            _ => line.insert(0, odd),
        }
    }

    /// A line as long as lines may be, or longer.
    pub(super) fn long_line(&mut self) -> Vec<u8> {
        let r = &mut self.random;
        let length = r.pick(&[
            1_022, 1_023, 1_024, 1_024, 1_025, 1_025, 1_026, 3_000, 70_000,
        ]);
        let mut line = farm_line(2, Costs::new(1, 2, 0, 0, 0), &[5]);
        match r.between(0, 3) {
            0 => line.resize(length, b'\t'),
            1 => line.resize(length, b'9'),
            2 => line = (0..length).map(|_| r.pick(b"\0\t09ajx\r")).collect(),
            _ => {
                // Readable up to its length: each field a short number.
                while line.len() + 4 <= length {
                    line.extend_from_slice(b"\t1");
                }
                let rest: &[u8] = if line.len() + 3 == length {
                    b"\t01"
                } else {
                    b"\t1"
                };
                line.extend_from_slice(rest);
            }
        }
        line
    }
}

/// Leads the number at or before a place with zeros up to a number of digits.
fn lengthen_number(line: &mut Vec<u8>, place: usize, digits: usize) {
    let start = line[..place]
        .iter()
        .rposition(|&b| b == b'\t')
        .map_or(0, |tab| tab + 1);
    let rest = &line[start..];
    let length = rest.iter().position(|&b| b == b'\t').unwrap_or(rest.len());
    for _ in length..digits {
        line.insert(start, b'0');
    }
}
