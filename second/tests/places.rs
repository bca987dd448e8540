//! Tabs and newlines are found wherever they stand in a word of eight bytes, and
//! nothing else passes for one.

mod common;

use common::{check, tabs};
use second::program::{answers, run};
use second::quick::Quick;
use std::io::Read;

const OPENING: &str = "farm 3 1 2 0 0 0 30 0\n";

const OPENED: &str = "open 3 2\n";

const UNREADABLE: &str = "no 11\n";

/// Every kind of call, all granted.
const DAY: [&str; 8] = [
    "farm 3 1 2 0 0 0 30 0",
    "quote 1 10 18",
    "job 1 10 18",
    "job 2 3 20",
    "job 2 2 30 1",
    "withdraw 3",
    "clock 10",
    "account 1",
];

const DAY_ANSWERS: &str = "open 3 2\nquote 1 0 18 2\nyes 1 0 18 2\nyes 2 10 19 1\n\
    yes 3 18 22 1\ngone 3\nchunk 1 1 1 6 0 6 18 18\nchunk 1 1 2 4 6 10 18 18\n\
    chunk 2 2 3 3 10 13 19 19\nclock 10 3\naccount 1 30 0\n";

/// A number with zeros in front, so that it has so many digits at least.
fn padded(number: &str, digits: usize) -> String {
    format!("{number:0>digits$}")
}

/// The day with every number padded.
fn with_digits(digits: usize) -> Vec<u8> {
    let mut day = String::new();
    for line in DAY {
        let (kind, numbers) = line.split_once(' ').unwrap();
        let numbers = numbers.split(' ').map(|number| padded(number, digits));
        day += &format!("{kind} {}\n", numbers.collect::<Vec<_>>().join(" "));
    }
    tabs(&day)
}

/// The answers to a day behind a line of so many bytes, which cannot be read: the
/// day begins at another place of a word.
fn answers_behind(length: usize, day: &[u8]) -> Vec<u8> {
    let whole = [&b"x".repeat(length), &b"\n"[..], day].concat();
    let given = answers(&whole);
    given.strip_prefix(&tabs(UNREADABLE)[..]).unwrap().to_vec()
}

/// The answer to bytes on an open farm.
fn answer(bytes: &[u8]) -> Vec<u8> {
    let day = [&tabs(OPENING), bytes, b"\n"].concat();
    let given = answers(&day);
    given.strip_prefix(&tabs(OPENED)[..]).unwrap().to_vec()
}

fn assert_unreadable(line: &[u8]) {
    assert_eq!(answer(line), tabs(UNREADABLE), "{}", line.escape_ascii());
}

/// Digits and separators, which say something by themselves, left out.
fn other_bytes() -> impl Iterator<Item = u8> {
    (0..=255).filter(|byte| !matches!(byte, b'\t' | b'\n' | b'0'..=b'9'))
}

/// No place of a word may lose a tab, a newline or a digit.
#[test]
fn a_day_is_answered_alike_at_every_place() {
    for digits in 1..=13 {
        let day = with_digits(digits);
        for length in 0..8 {
            let given = answers_behind(length, &day);
            assert_eq!(given, tabs(DAY_ANSWERS), "{digits} digits, {length} bytes");
        }
    }
    let unreadable = UNREADABLE.repeat(DAY.len());
    for length in 0..8 {
        let given = answers_behind(length, &with_digits(14));
        assert_eq!(given, tabs(&unreadable), "{length} bytes");
    }
}

/// One number after the other gets longer, so that a short field stands beside a
/// long one in each order.
#[test]
fn every_field_may_be_of_any_length() {
    for place in 0..4 {
        for digits in 1..=14 {
            let mut numbers = ["1", "2", "30", "1"].map(str::to_string);
            numbers[place] = padded(&numbers[place], digits);
            let line = tabs(&format!("job {}", numbers.join(" ")));
            let yes = if digits < 14 {
                "yes 1 0 4 1\n"
            } else {
                UNREADABLE
            };
            assert_eq!(answer(&line), tabs(yes), "{}", line.escape_ascii());
        }
    }
}

/// A byte in the place of a tab: a test of seven bits would take 0x89 for one, and a
/// range too wide its neighbours.
#[test]
fn only_a_tab_parts_fields() {
    for digits in 1..=13 {
        let show = padded("1", digits);
        let around = |byte| [b"job\t", show.as_bytes(), &[byte], b"1\t30"].concat();
        assert_eq!(answer(&around(b'\t')), tabs("yes 1 0 3 1\n"));
        assert_eq!(answer(&around(b'\n')), tabs(&UNREADABLE.repeat(2)));
        for byte in other_bytes().chain(b'0'..=b'9') {
            assert_unreadable(&around(byte));
        }
    }
}

/// The same for a newline, between two lines that could be read.
#[test]
fn only_a_newline_parts_lines() {
    let account = tabs("account 2 0 0\n");
    for digits in 1..=13 {
        let show = padded("2", digits);
        let around = |byte| [b"account\t", show.as_bytes(), &[byte], b"account\t2"].concat();
        assert_eq!(answer(&around(b'\n')), account.repeat(2));
        assert_unreadable(&around(b'\t'));
        for byte in other_bytes().chain(b'0'..=b'9') {
            assert_unreadable(&around(byte));
        }
    }
}

/// A subtraction over a word borrows behind a byte that is found: 8 behind a tab and
/// 11 behind a newline would be found too, and the line behind them could be read.
#[test]
fn a_byte_beside_a_separator_is_none() {
    for (length, byte) in (1..=9).flat_map(|length| other_bytes().map(move |byte| (length, byte))) {
        let run = vec![byte; length];
        assert_unreadable(&[&run, &b"account\t2"[..]].concat());
        assert_unreadable(&[&b"account\t2"[..], &run].concat());
        assert_unreadable(&[&b"account\t"[..], &run, b"2"].concat());
        assert_unreadable(&[&b"account"[..], &run, b"\t2"].concat());
        assert_unreadable(&[&b"account\t2\t"[..], &run, b"account\t2"].concat());
        assert_unreadable(&run);
    }
}

/// None of them may be skipped, and each newline ends a line.
#[test]
fn separators_side_by_side() {
    let account = tabs("account 2 0 0\n");
    for count in 1..=17 {
        let run = b"\t".repeat(count);
        let between = [&b"account"[..], &run, b"2"].concat();
        if count == 1 {
            assert_eq!(answer(&between), account);
        } else {
            assert_unreadable(&between);
        }
        assert_unreadable(&[&run, &b"account\t2"[..]].concat());
        assert_unreadable(&[&b"account\t2"[..], &run].concat());
        assert_unreadable(&run);
        let empty_lines = [&b"\n".repeat(count)[..], b"account\t2"].concat();
        let expected = [tabs(&UNREADABLE.repeat(count)), account.clone()].concat();
        assert_eq!(answer(&empty_lines), expected);
    }
}

/// An opening of so many bytes with too many allowances, all but the last two of so
/// many digits.
fn long_opening(length: usize, digits: usize) -> Vec<u8> {
    let mut line = String::from("farm 3 1 2 0 0 0");
    while line.len() + 20 < length {
        line += &format!(" {}", padded("7", digits));
    }
    let left = length - line.len();
    line += &format!(" {} 7", padded("7", (left - 3).min(13)));
    line += &"7".repeat(length - line.len());
    tabs(&line)
}

/// 1,024 bytes and no more, wherever the line begins and its tabs stand, with a
/// newline or without.
#[test]
fn the_limit_of_a_line() {
    for digits in 1..=13 {
        for (length, answer) in [(1_023, 3), (1_024, 3), (1_025, 11), (1_026, 11)] {
            let line = long_opening(length, digits);
            let refused = tabs(&format!("no {answer}\n"));
            let with_more = [&line[..], b"\n", &with_digits(1)].concat();
            let with_answers = [&refused[..], &tabs(DAY_ANSWERS)].concat();
            for before in 0..8 {
                assert_eq!(answers_behind(before, &line), refused, "{length} bytes");
                assert_eq!(answers_behind(before, &with_more), with_answers);
            }
        }
    }
}

/// A line that is too long ends at its newline only.
#[test]
fn what_stands_behind_the_limit_is_no_line() {
    for length in (1_016..=1_034).chain(2_040..=2_056) {
        for byte in [b'\0', b'1', b'x', b'\t', 0x8a] {
            let line = [&vec![byte; length][..], b"account\t2"].concat();
            assert_unreadable(&line);
            let more = [&line[..], b"\naccount\t2"].concat();
            assert_eq!(answer(&more), tabs("no 11\naccount 2 0 0\n"));
        }
    }
}

/// A day broken off anywhere: the last line is answered as if it had its newline.
#[test]
fn the_input_may_end_anywhere() {
    let day = with_digits(3);
    for length in 1..day.len() {
        let broken = &day[..length];
        let last = broken.iter().rev().position(|&byte| byte == b'\n');
        let before = answers(&broken[..length - last.unwrap_or(length)]);
        if last == Some(0) {
            assert_eq!(answers(broken), before, "{length} bytes");
        } else {
            let ended = answers(&[broken, b"\n"].concat());
            assert!(ended.len() > before.len(), "{length} bytes");
            assert_eq!(answers(broken), ended, "{length} bytes");
        }
    }
    check(&DAY.join("\n"), DAY_ANSWERS);
    // A digit less can be read, a tab at the end cannot.
    check(&format!("{OPENING}account 0"), "open 3 2\nno 4\n");
    check(&format!("{OPENING}account "), "open 3 2\nno 11\n");
}

/// Bytes that come a few at a time.
struct Pieces<'a> {
    rest: &'a [u8],
    length: usize,
}

impl Read for Pieces<'_> {
    fn read(&mut self, block: &mut [u8]) -> std::io::Result<usize> {
        let length = self.length.min(self.rest.len());
        let (piece, left) = self.rest.split_at(length);
        block[..length].copy_from_slice(piece);
        self.rest = left;
        Ok(length)
    }
}

/// A piece may end in a word, beside a separator, or right at the limit of a line.
#[test]
fn pieces_of_any_length_are_answered_alike() {
    let mut day = Vec::new();
    for length in [1_023, 1_024, 1_025, 1_026, 2_050] {
        day.extend_from_slice(&long_opening(length, 5));
        day.push(b'\n');
    }
    day.extend_from_slice(&with_digits(4));
    day.extend_from_slice(&[b'\x89'; 1_025]);
    let expected = [
        tabs("no 3\nno 3\nno 11\nno 11\nno 11\n"),
        tabs(DAY_ANSWERS),
        tabs(UNREADABLE),
    ]
    .concat();
    for length in (1..=33).chain(1_015..=1_035) {
        let mut given = Vec::new();
        let pieces = Pieces { rest: &day, length };
        run::<Quick>(pieces, &mut given).unwrap();
        assert_eq!(given, expected, "pieces of {length}");
    }
}
