//! Lines with one odd field.

use super::Day;
use crate::farm::Offer;
use crate::text::line;

/// What stands behind the deadline of an offer or a quote; some of it can be read.
const BEHIND_A_DEADLINE: &[&[u8]] = &[
    b"\t",
    b"\t\t",
    b"\t\t7",
    b"\t7\t",
    b"\t7\t8",
    b"\t7\t8\t9",
    b"\t07",
    b"\t00",
    b"\t0000000000007",
    b"\t00000000000007",
    b"\t10000000000000",
    b"\t7a",
    b"\tp",
    b"\t+7",
    b"\t-7",
    b"\t 7",
    b"\t7 ",
    b"\t7\r",
    b"\t7.0",
    b" 7",
];

/// What stands in the place of r; some of it can be read.
const IN_PLACE_OF_R: &[&str] = &[
    "",
    "\t",
    " ",
    "7 ",
    " 7",
    "7\r",
    "+7",
    "-0",
    "7.0",
    "r",
    "007",
    "0000000010000",
    "0000000010001",
    "00000000000007",
    "10000000000000",
];

/// What stands before and behind the number of a job to be withdrawn.
const AROUND_A_JOB: &[(&str, &str)] = &[
    ("withdraw\t", "\t"),
    ("withdraw\t", "\t7"),
    ("withdraw\t", "\t\t"),
    ("withdraw\t\t", ""),
    ("withdraw\t0\t", ""),
    ("withdraw\t00", ""),
    ("withdraw\t+", ""),
    ("withdraw\t-", ""),
    ("withdraw\t ", ""),
    ("withdraw\t", " "),
    ("withdraw\t", "\r"),
    ("withdraw\t", "\0"),
    ("withdraw\t", ".0"),
    ("withdraw\t", "a"),
    ("withdraw ", ""),
    ("withdraw", ""),
    ("\twithdraw\t", ""),
    (" withdraw\t", ""),
    ("Withdraw\t", ""),
    ("withdrawn\t", ""),
    ("withdra\t", ""),
    ("gone\t", ""),
];

/// What stands before the show of a quote, in place of its size and behind its
/// deadline; some of it can be read.
const AROUND_A_QUOTE: &[(&str, &str, &str)] = &[
    ("quote\t", "1", ""),
    ("quote\t", "001", ""),
    ("quote\t", "0000000000001", ""),
    ("quote\t", "00000000000001", ""),
    ("quote\t", "10000000000000", ""),
    ("quote\t", "", ""),
    ("quote\t", "\t", ""),
    ("quote\t", "1\t1", ""),
    ("quote\t", "1\t1\t1", ""),
    ("quote\t", "+1", ""),
    ("quote\t", "-1", ""),
    ("quote\t", " 1", ""),
    ("quote\t", "1 ", ""),
    ("quote\t", "1.0", ""),
    ("quote\t", "one", ""),
    ("quote\t", "1", "\r"),
    ("quote\t", "1", "\0"),
    ("quote\t", "1", "0000000000"),
    ("quote\t0", "1", ""),
    ("quote\t0000000000000", "1", ""),
    ("quote\t\t", "1", ""),
    ("quote\tjob\t", "1", ""),
    ("quote ", "1", ""),
    ("quote", "1", ""),
    ("\tquote\t", "1", ""),
    (" quote\t", "1", ""),
    ("Quote\t", "1", ""),
    ("quotes\t", "1", ""),
    ("quot\t", "1", ""),
    ("job quote\t", "1", ""),
    ("job\tquote\t", "1", ""),
    ("yes\t", "1", ""),
];

impl Day {
    pub(super) fn odd_compute(&mut self) {
        let offer = Offer::new(self.some_show(), 1, self.session.clock() + 2_000);
        let mut line = line(self.kind_of_offer(), &offer.fields());
        line.extend_from_slice(self.random.pick(BEHIND_A_DEADLINE));
        self.raw(&line);
    }

    pub(super) fn odd_return(&mut self) {
        let odd = self.random.pick(IN_PLACE_OF_R);
        self.raw(format!("farm\t2\t3\t40\t5\t60\t{odd}\t800\t900").as_bytes());
    }

    /// The job is a waiting one if there is any, so that reading the line wrongly
    /// takes that job away.
    pub(super) fn odd_withdrawal(&mut self) {
        let job = self.some_waiting().unwrap_or(1);
        let (before, after) = self.random.pick(AROUND_A_JOB);
        let around = format!("{before}{job}{after}");
        let of_13_digits = format!("withdraw\t{job:013}");
        let of_14_digits = format!("withdraw\t{job:014}");
        let line = match self.random.between(0, 11) {
            0 => "withdraw",
            1 => "withdraw\t",
            2 => "withdraw\t10000000000000",
            3 => &of_13_digits,
            4 => &of_14_digits,
            _ => &around,
        };
        self.raw(line.as_bytes());
    }

    pub(super) fn odd_quote(&mut self) {
        let show = self.some_show();
        let deadline = self.session.clock() + 2_000;
        let (before, size, after) = self.random.pick(AROUND_A_QUOTE);
        let around = format!("{before}{show}\t{size}\t{deadline}{after}");
        let of_two = format!("quote\t{show}\t1");
        let line = match self.random.between(0, 15) {
            0 => "quote",
            1 => "quote\t",
            2 => "quote\t\t\t",
            3 => &of_two,
            _ => &around,
        };
        self.raw(line.as_bytes());
    }
}
