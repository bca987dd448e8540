//! `compare PROGRAM FIRST_SEED COUNT` runs a program on seeded random days and
//! compares its answers byte for byte with this library's.

use second::days::day;
use second::program::answers;
use second::random::Random;
use std::fs::{self, File};
use std::io::{self, Read, Write};
use std::path::Path;
use std::process::{Child, ChildStdin, Command, ExitCode, Stdio};
use std::time::Duration;

/// Every so many days is fed through a pipe in pieces, the others from a file.
/// Days are of eight kinds in turn, so seven brings each kind into the pipe.
const PIPED_EVERY: u64 = 7;

/// The most pieces of a piped day, so that long days stay quick.
const MOST_PIECES: u64 = 40;

/// Lines shown before and behind the first difference.
const LINES_AROUND: usize = 3;

fn main() -> ExitCode {
    let arguments: Vec<String> = std::env::args().skip(1).collect();
    let [program, first, count] = &arguments[..] else {
        eprintln!("compare PROGRAM FIRST_SEED COUNT");
        return ExitCode::FAILURE;
    };
    let (Ok(first), Ok(count)) = (first.parse(), count.parse()) else {
        eprintln!("FIRST_SEED and COUNT are numbers");
        return ExitCode::FAILURE;
    };
    let file = std::env::temp_dir().join(format!("compare-{}.day", std::process::id()));
    let compared = compare(program, first, count, &file);
    // The file is missing if no day was read from it.
    let _ = fs::remove_file(&file);
    match compared {
        Ok(Some(lines)) => {
            println!("{count} days with {lines} lines: no difference");
            ExitCode::SUCCESS
        }
        Ok(None) => ExitCode::FAILURE,
        Err(error) => {
            eprintln!("{program}: {error}");
            ExitCode::FAILURE
        }
    }
}

/// The number of lines compared, none after a difference.
fn compare(program: &str, first: u64, count: u64, file: &Path) -> io::Result<Option<usize>> {
    let mut lines = 0;
    for seed in first..first + count {
        let day = day(seed);
        let expected = answers(&day);
        let (given, good_end) = if seed % PIPED_EVERY == first % PIPED_EVERY {
            run_from_pipe(program, &day, seed)?
        } else {
            run_from_file(program, &day, file)?
        };
        if given != expected || !good_end {
            report(seed, &day, &expected, &given, good_end);
            return Ok(None);
        }
        lines += day.split(|&byte| byte == b'\n').count();
    }
    Ok(Some(lines))
}

fn start(program: &str, input: Stdio) -> io::Result<Child> {
    let mut command = Command::new(program);
    command.stdin(input).stdout(Stdio::piped()).spawn()
}

/// The answers, and whether the program ended well.
fn run_from_file(program: &str, day: &[u8], file: &Path) -> io::Result<(Vec<u8>, bool)> {
    fs::write(file, day)?;
    let output = start(program, File::open(file)?.into())?.wait_with_output()?;
    Ok((output.stdout, output.status.success()))
}

/// The same through a pipe, so that reads end inside lines.
fn run_from_pipe(program: &str, day: &[u8], seed: u64) -> io::Result<(Vec<u8>, bool)> {
    let mut child = start(program, Stdio::piped())?;
    let (stdin, stdout) = (child.stdin.take(), child.stdout.take());
    let mut given = Vec::new();
    std::thread::scope(|scope| {
        // Answers are read meanwhile: a full pipe would stop the program.
        scope.spawn(|| stdin.map(|stdin| write_in_pieces(stdin, day, seed)));
        stdout.map_or(Ok(0), |mut stdout| stdout.read_to_end(&mut given))
    })?;
    Ok((given, child.wait()?.success()))
}

/// Stops where the program no longer reads; its answers will tell.
fn write_in_pieces(mut stdin: ChildStdin, day: &[u8], seed: u64) {
    let mut random = Random::new(seed);
    let usual = day.len() as u64 / MOST_PIECES + 5;
    let mut rest = day;
    while !rest.is_empty() {
        let (piece, left) = rest.split_at(piece_length(rest, usual, &mut random));
        if stdin.write_all(piece).is_err() {
            return;
        }
        rest = left;
        // Time for the program to read this piece by itself.
        std::thread::sleep(Duration::from_micros(50));
    }
}

/// A piece ends anywhere in a word of eight bytes, and often right before or right
/// behind a tab or a newline.
fn piece_length(rest: &[u8], usual: u64, random: &mut Random) -> usize {
    let length = random.between(1, 2 * usual).min(rest.len() as u64) as usize;
    let mut behind = rest[length..].iter();
    let separator = behind.position(|byte| matches!(byte, b'\t' | b'\n'));
    match (separator, random.between(0, 3)) {
        (Some(place), 0) => length + place,
        (Some(place), 1) => length + place + 1,
        _ => length,
    }
}

fn report(seed: u64, day: &[u8], expected: &[u8], given: &[u8], good_end: bool) {
    println!("seed {seed} differs; its input:");
    for line in day.split_inclusive(|&byte| byte == b'\n') {
        println!("  {}", line.escape_ascii());
    }
    if !good_end {
        println!("the program did not end well");
    }
    let expected: Vec<&[u8]> = expected.split(|&byte| byte == b'\n').collect();
    let given: Vec<&[u8]> = given.split(|&byte| byte == b'\n').collect();
    let alike = expected.iter().zip(&given).take_while(|(a, b)| a == b);
    let place = alike.count();
    println!("first difference in answer line {}", place + 1);
    report_around("expected", &expected, place);
    report_around("given", &given, place);
}

fn report_around(name: &str, lines: &[&[u8]], place: usize) {
    println!("{name}:");
    let first = place.saturating_sub(LINES_AROUND);
    let shown = lines.iter().enumerate().skip(first);
    for (number, line) in shown.take_while(|(number, _)| *number <= place + LINES_AROUND) {
        let mark = if number == place { '>' } else { ' ' };
        println!("{mark} {}", line.escape_ascii());
    }
}
