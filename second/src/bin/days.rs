//! `days SEED` prints one seeded random day; `days --tiny SEED` a tiny one.

use second::days::{day, tiny_day};
use std::io::Write;
use std::process::ExitCode;

fn main() -> ExitCode {
    let Some(bytes) = asked_for() else {
        eprintln!("days [--tiny] SEED");
        return ExitCode::FAILURE;
    };
    match std::io::stdout().write_all(&bytes) {
        Ok(()) => ExitCode::SUCCESS,
        Err(_) => ExitCode::FAILURE,
    }
}

fn asked_for() -> Option<Vec<u8>> {
    let arguments: Vec<String> = std::env::args().skip(1).collect();
    match &arguments[..] {
        [seed] => Some(day(seed.parse().ok()?)),
        [tiny, seed] if tiny == "--tiny" => Some(tiny_day(seed.parse().ok()?)),
        _ => None,
    }
}
