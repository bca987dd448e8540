//! What several tests use. In days written as in the paper a space stands for a tab.

// Each test is compiled with this file by itself and may use only some of it.
#![allow(dead_code)]

use second::farm::Farm;
use second::job::{Record, Walk};
use second::limits::MOST_NODES;
use second::program::answers;
use second::text::read_line;

pub fn tabs(text: &str) -> Vec<u8> {
    text.replace(' ', "\t").into_bytes()
}

pub fn check(day: &str, expected: &str) {
    let given = answers(&tabs(day));
    assert_eq!(
        given.escape_ascii().to_string(),
        tabs(expected).escape_ascii().to_string()
    );
}

/// The kind and numbers of a line; no kind where it cannot be read.
pub fn read(line: &[u8]) -> (&[u8], Vec<u64>) {
    let mut numbers = Vec::new();
    let kind = read_line(line, &mut numbers).unwrap_or_default();
    (kind, numbers)
}

/// The lines of all waiting bookings.
pub fn waiting<W: Walk>(farm: &Farm<W>) -> Vec<Record> {
    let mut lines = vec![Record::default(); MOST_NODES * farm.waiting()];
    let count = farm.show_waiting(&mut lines).unwrap();
    lines.truncate(count);
    lines
}
