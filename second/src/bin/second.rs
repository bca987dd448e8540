//! `second`: answers a day of lines from standard input.
//! `second --whole`: the same, every waiting job booked again at each offer and quote.
//! `second --exhaustive`: the same by trying everything, for tiny days.

use second::exhaustive::Exhaustive;
use second::program::run;
use second::quick::{Quick, Whole};
use std::io::{stdin, stdout};

fn main() {
    let (input, output) = (stdin().lock(), stdout().lock());
    // A read or write error ends the program quietly.
    let _ = match std::env::args().nth(1).as_deref() {
        Some("--exhaustive") => run::<Exhaustive>(input, output),
        Some("--whole") => run::<Whole>(input, output),
        _ => run::<Quick>(input, output),
    };
}
