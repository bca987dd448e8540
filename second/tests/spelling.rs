//! Random days are spelled in many ways, and the spelling changes no answer.

use second::days::day;
use second::program::answers;
use second::spelling::Spelling;
use second::text::read_line;

const LINES: [&[u8]; 5] = [
    b"job\t2\t30\t4000",
    b"quote\t1\t2\t1000000000000\t7",
    b"clock\t9",
    b"account\t1",
    b"withdraw\t9999999999999",
];

/// Reads a line as its kind and its numbers.
fn read(line: &[u8]) -> Option<(&[u8], Vec<u64>)> {
    let mut numbers = Vec::new();
    read_line(line, &mut numbers).map(|kind| (kind, numbers))
}

#[test]
fn a_spelled_line_says_the_same() {
    let many = [&b"farm\t1\t1\t1\t0\t0\t0"[..], &b"\t7".repeat(400)].concat();
    let mut respelled = 0;
    for seed in 0..200 {
        let mut spelling = Spelling::new(seed);
        for line in LINES.into_iter().chain([&many[..]]) {
            let spelled = spelling.of(line);
            assert_eq!(read(&spelled), read(line), "{}", spelled.escape_ascii());
            assert!(read(line).is_some() && spelled.len() <= 1_024);
            respelled += u64::from(spelled != line);
        }
    }
    assert!(respelled > 400, "only {respelled} lines");
}

/// They must not be read, or they would change the day.
#[test]
fn odd_lines_are_unreadable() {
    let mut odd_lines = 0;
    for seed in 0..200 {
        let mut spelling = Spelling::new(seed);
        for line in LINES.repeat(30) {
            let Some(odd) = spelling.odd_before(line) else {
                continue;
            };
            let mut lines = odd.split(|&byte| byte == b'\n');
            assert!(lines.all(|line| {
                let day = [b"farm\t3\t1\t2\t0\t0\t0\t0\n", line, b"\n"].concat();
                answers(&day) == b"open\t3\t1\nno\t11\n"
            }));
            odd_lines += 1;
        }
    }
    assert!(odd_lines > 500, "only {odd_lines} odd lines");
}

/// What a careless reader may stumble over, each on a fair share of the days.
#[test]
fn random_days_are_spelled_in_many_ways() {
    let days: Vec<Vec<u8>> = (0..256).map(day).collect();
    let count = |holds: &dyn Fn(&[u8]) -> bool| days.iter().filter(|day| holds(day)).count();
    for byte in *b"\x00\x01\x08\x0b\x80\x88\x89\x8a\x8b\xff" {
        let holding = count(&|day| day.contains(&byte));
        assert!(holding > 25, "only {holding} days hold {byte:#x}");
    }
    for pair in [b"\t\t", b"\t\n", b"\n\t", b"\n\n", b"\t\x08", b"\n\x0b"] {
        let holding = count(&|day| day.windows(2).any(|two| two == pair));
        let pair = pair.escape_ascii();
        assert!(holding > 12, "only {holding} days hold {pair}");
    }
    let zeros = count(&|day| day.windows(6).any(|part| part == b"\t00000"));
    assert!(zeros > 90, "only {zeros} days with zeros before numbers");
    let unended = count(&|day| !day.is_empty() && !day.ends_with(b"\n"));
    assert!(unended > 80, "only {unended} days without the last newline");
}

/// Lines at the limit that can be read and lines that are too long.
#[test]
fn random_days_hold_lines_about_the_limit() {
    let days: Vec<Vec<u8>> = (0..256).map(day).collect();
    let lines = days.iter().flat_map(|day| day.split(|&byte| byte == b'\n'));
    let mut readable = [0; 7];
    let mut too_long = [0; 7];
    for line in lines.filter(|line| read(line).is_some()) {
        match line.len() {
            length @ 1_018..=1_024 => readable[length - 1_018] += 1,
            length @ 1_025..=1_031 => too_long[length - 1_025] += 1,
            _ => {}
        }
    }
    assert!(readable[2..].iter().all(|&count| count > 4), "{readable:?}");
    assert!(too_long[..6].iter().all(|&count| count > 4), "{too_long:?}");
}

/// Most lines can be read on most of the days.
#[test]
fn most_lines_of_random_days_can_be_read() {
    let (mut lines, mut unreadable) = (0, 0);
    for seed in 0..256 {
        let given = answers(&day(seed));
        let given = given.split(|&byte| byte == b'\n');
        let given = given.filter(|line| !line.starts_with(b"chunk"));
        for line in given {
            lines += 1;
            unreadable += u64::from(line == b"no\t11");
        }
    }
    assert!(unreadable * 8 < lines, "{unreadable} of {lines} lines");
}
