//! `bench PROGRAM [BEFORE [FILTER...] [-- ANSWER_FILTER...]]` times a program,
//! `second` and `second --whole` on the same long days, taking turns, and compares
//! medians of time and peak resident memory. BEFORE is an earlier build of the
//! program; it takes its turn in the same run, and the line also says how many times
//! quicker the program is than that build, and its memory beside that build's. It is
//! left out of a day that it answers otherwise, as a build from before a request may.
//! FILTER, a command with its arguments, turns a day into one that BEFORE reads, for a
//! request that changed how lines are written. ANSWER_FILTER, another one, turns
//! today's answers into those that BEFORE should give, for a request that changed how
//! answers are written. The program itself must write the same bytes as `second` on
//! every day and end well.

use second::long_days::{long_days, LongDay};
use second::random::Random;
use std::fs::{self, File};
use std::io::{self, Read, Write};
use std::path::{Path, PathBuf};
use std::process::{Command, ExitCode, Output, Stdio};
use std::sync::mpsc;
use std::time::{Duration, Instant};

const USAGE: &str = "\
bench PROGRAM [BEFORE [FILTER...] [-- ANSWER_FILTER...]]
  BEFORE         an earlier build of PROGRAM
  FILTER         a command that turns a day into one that BEFORE reads
  ANSWER_FILTER  a command that turns today's answers into those that BEFORE gives";

const REPETITIONS: usize = 15;

/// How long a program may take to answer all lines before its memory is read.
const PATIENCE: Duration = Duration::from_secs(60);

/// The programs that are run on each day.
struct Programs<'a> {
    program: &'a Path,
    second: &'a Path,
    before: Option<&'a Path>,
    /// Empty where the earlier build reads each day as it is.
    filter: &'a [PathBuf],
    /// Empty where it should write the same answers.
    answer_filter: &'a [PathBuf],
}

/// Bytes in a file, which goes away with the value.
struct InputFile {
    path: PathBuf,
    bytes: Vec<u8>,
}

/// A program on a day, and the answers that it should give.
#[derive(Clone, Copy)]
struct Turn<'a> {
    program: &'a Path,
    argument: Option<&'static str>,
    day: &'a InputFile,
    answers: &'a [u8],
}

fn main() -> ExitCode {
    let arguments: Vec<PathBuf> = std::env::args_os().skip(1).map(PathBuf::from).collect();
    let mut parts = arguments.splitn(2, |argument| argument.as_os_str() == "--");
    let first_part = parts.next().unwrap_or_default();
    let Some((program, rest)) = first_part.split_first() else {
        eprintln!("{USAGE}");
        return ExitCode::FAILURE;
    };
    match bench(program, rest, parts.next().unwrap_or_default()) {
        Ok(()) => ExitCode::SUCCESS,
        Err(error) => {
            eprintln!("{error}");
            ExitCode::FAILURE
        }
    }
}

fn bench(program: &Path, rest: &[PathBuf], answer_filter: &[PathBuf]) -> io::Result<()> {
    let second = std::env::current_exe()?.with_file_name("second");
    let programs = Programs {
        program,
        second: &second,
        before: rest.first().map(PathBuf::as_path),
        filter: rest.get(1..).unwrap_or_default(),
        answer_filter,
    };
    for day in long_days() {
        println!("{}", programs.on_day(day)?);
    }
    Ok(())
}

impl Programs<'_> {
    /// One line about one day. A program that answers otherwise does other work,
    /// so its time would say nothing.
    fn on_day(&self, day: LongDay) -> io::Result<String> {
        let LongDay { name, lines, bytes } = day;
        let day = InputFile::new("day", bytes)?;
        let answers = output(Command::new(self.second).stdin(day.open()?))?.stdout;
        let day_before = InputFile::new("day-before", filtered(self.filter, &day.bytes)?)?;
        let answers_before = filtered(self.answer_filter, &answers)?;
        let program = Turn::new(self.program, &day, &answers);
        let second = Turn::new(self.second, &day, &answers);
        let turn_before = |before| Turn::new(before, &day_before, &answers_before);
        let before = self.before.map(turn_before);
        if !program.answers_well()? {
            let program = self.program.display();
            let error = format!("{name}: {program} does not answer as second does");
            return Err(io::Error::other(error));
        }
        let alike = before.map_or(Ok(true), Turn::answers_well)?;
        let before = before.filter(|_| alike);
        let figures = measure(program, second, before)?;
        let end = if alike {
            ""
        } else {
            "; before answers otherwise"
        };
        Ok(format!("{name}: {lines} lines; {figures}{end}"))
    }
}

/// What a filter makes of the bytes, or the same bytes where there is none.
fn filtered(filter: &[PathBuf], bytes: &[u8]) -> io::Result<Vec<u8>> {
    let Some((program, arguments)) = filter.split_first() else {
        return Ok(bytes.to_vec());
    };
    let input = InputFile::new("unfiltered", bytes.to_vec())?;
    let filtered = output(Command::new(program).args(arguments).stdin(input.open()?))?;
    if !filtered.status.success() {
        let error = format!("{} does not end well", program.display());
        return Err(io::Error::other(error));
    }
    Ok(filtered.stdout)
}

impl InputFile {
    fn new(name: &str, bytes: Vec<u8>) -> io::Result<Self> {
        let name = format!("bench-{}-{name}", std::process::id());
        let path = std::env::temp_dir().join(name);
        fs::write(&path, &bytes)?;
        Ok(InputFile { path, bytes })
    }

    fn open(&self) -> io::Result<File> {
        File::open(&self.path)
    }
}

impl Drop for InputFile {
    fn drop(&mut self) {
        // A file that is gone already is no harm.
        let _ = fs::remove_file(&self.path);
    }
}

impl<'a> Turn<'a> {
    fn new(program: &'a Path, day: &'a InputFile, answers: &'a [u8]) -> Self {
        Turn {
            program,
            argument: None,
            day,
            answers,
        }
    }

    fn command(self) -> io::Result<Command> {
        let mut command = Command::new(self.program);
        command.args(self.argument);
        command.stdin(self.day.open()?);
        Ok(command)
    }

    /// Whether it gives the answers and ends well.
    fn answers_well(self) -> io::Result<bool> {
        let given = output(&mut self.command()?)?;
        Ok(given.stdout == self.answers && given.status.success())
    }
}

/// An error names the program, as there are several.
fn output(command: &mut Command) -> io::Result<Output> {
    let output = command.stderr(Stdio::inherit()).output();
    let program = command.get_program().display();
    output.map_err(|error| io::Error::other(format!("{program}: {error}")))
}

/// The figures of the programs on a day that all of them answer well.
fn measure(program: Turn, second: Turn, before: Option<Turn>) -> io::Result<String> {
    let whole = Turn {
        argument: Some("--whole"),
        ..second
    };
    // The earlier build is last, as it may be missing.
    let turns: Vec<Turn> = [program, second, whole].into_iter().chain(before).collect();
    let times = medians(&turns)?;
    let (program_time, second_time, whole_time) = (times[0], times[1], times[2]);
    let program_memory = peak_memory(program)?;
    let second_memory = peak_memory(second)?;
    let figures = format!(
        "program {:.2} ms, second {:.2} ms, whole walks {:.2} ms; \
         times {:.2}, beside whole walks {:.2}; \
         program {program_memory} kB, second {second_memory} kB, memory {:.2}",
        program_time * 1e3,
        second_time * 1e3,
        whole_time * 1e3,
        program_time / second_time,
        program_time / whole_time,
        program_memory as f64 / second_memory as f64,
    );
    let (Some(before), Some(before_time)) = (before, times.get(3)) else {
        return Ok(figures);
    };
    let before_memory = peak_memory(before)?;
    Ok(format!(
        "{figures}; before {:.2} ms, times quicker {:.2}; \
         before {before_memory} kB, memory beside before {:.2}",
        before_time * 1e3,
        before_time / program_time,
        program_memory as f64 / before_memory as f64,
    ))
}

/// Median seconds of each turn. They come one after the other, so that a slow
/// moment of the machine meets them all, and each time in another order: in a
/// fixed one a program's place cost it up to a fifth.
fn medians(turns: &[Turn]) -> io::Result<Vec<f64>> {
    let mut times = vec![Vec::new(); turns.len()];
    let mut order: Vec<usize> = (0..turns.len()).collect();
    let mut random = Random::new(1);
    for _ in 0..REPETITIONS {
        shuffle(&mut order, &mut random);
        for &turn in &order {
            times[turn].push(time(turns[turn])?);
        }
    }
    Ok(times.into_iter().map(median).collect())
}

fn shuffle(order: &mut [usize], random: &mut Random) {
    for last in (1..order.len()).rev() {
        order.swap(last, random.place(last + 1));
    }
}

fn median(mut times: Vec<f64>) -> f64 {
    times.sort_by(f64::total_cmp);
    times[times.len() / 2]
}

/// Seconds from start to end.
fn time(turn: Turn) -> io::Result<f64> {
    let mut command = turn.command()?;
    command.stdout(Stdio::null());
    let begin = Instant::now();
    command.status()?;
    Ok(begin.elapsed().as_secs_f64())
}

/// The peak resident kilobytes. The day comes through a pipe that stays open,
/// so the program waits for more when all is answered and can be looked at; the
/// peak that `wait4` gives would count this process's own memory at the start.
fn peak_memory(turn: Turn) -> io::Result<u64> {
    let mut command = turn.command()?;
    let mut child = command
        .stdin(Stdio::piped())
        .stdout(Stdio::piped())
        .spawn()?;
    let (stdin, stdout) = (child.stdin.take(), child.stdout.take());
    let (Some(mut stdin), Some(mut stdout)) = (stdin, stdout) else {
        return Err(io::Error::other("no pipe"));
    };
    let (all_read, is_all_read) = mpsc::channel();
    let answer_bytes = turn.answers.len();
    let reader = std::thread::spawn(move || {
        let mut block = vec![0; 1 << 16];
        let mut read = 0;
        while let Ok(length @ 1..) = stdout.read(&mut block) {
            read += length;
            if read >= answer_bytes {
                // Nobody listens once the patience is over.
                let _ = all_read.send(());
            }
        }
    });
    stdin.write_all(&turn.day.bytes)?;
    // Silence or an early end is no error: the memory so far is read anyway.
    let _ = is_all_read.recv_timeout(PATIENCE);
    let memory = resident_peak(child.id());
    drop(stdin);
    child.wait()?;
    let _ = reader.join();
    memory
}

fn resident_peak(process: u32) -> io::Result<u64> {
    let status = fs::read_to_string(format!("/proc/{process}/status"))?;
    let line = status.lines().find_map(|line| line.strip_prefix("VmHWM:"));
    let kilobytes = line.and_then(|line| line.trim().strip_suffix(" kB"));
    let number = kilobytes.and_then(|number| number.trim().parse().ok());
    number.ok_or_else(|| io::Error::other("no VmHWM line"))
}
