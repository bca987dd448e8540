//! The program: lines in, answers out.

use crate::farm::{Accepted, Farm, Offer};
use crate::job::{Record, Walk};
use crate::limits::{LENT_RECORDS, MOST_LINE_BYTES};
use crate::quick::Quick;
use crate::refusal::Refusal;
use crate::share::Costs;
use crate::text;
use std::io::{self, ErrorKind, Read, Write};

/// Bytes asked for in one read.
const BLOCK: usize = 1 << 16;

/// Answers are written once there are this many, so that they never pile up.
const MANY_ANSWER_BYTES: usize = 1 << 16;

/// A day under way: the farm once it is opened, and memory used line by line.
pub struct Session<W> {
    farm: Option<Farm<W>>,
    numbers: Vec<u64>,
    timetable: Vec<Record>,
    answers: Vec<u8>,
}

impl<W: Walk> Default for Session<W> {
    fn default() -> Self {
        Session {
            farm: None,
            numbers: Vec::new(),
            timetable: vec![Record::default(); LENT_RECORDS],
            answers: Vec::new(),
        }
    }
}

impl<W: Walk> Session<W> {
    /// Answers one line, given without its newline.
    pub fn line(&mut self, line: &[u8]) {
        if let Err(refusal) = self.call(line) {
            text::print(&mut self.answers, b"no", &[refusal.number()]);
        }
    }

    fn call(&mut self, line: &[u8]) -> Result<(), Refusal> {
        if line.len() > MOST_LINE_BYTES {
            return Err(Refusal::Unreadable);
        }
        let kind = text::read_line(line, &mut self.numbers).ok_or(Refusal::Unreadable)?;
        let answers = &mut self.answers;
        match (kind, &self.numbers[..], &mut self.farm) {
            (b"farm", &[nodes, m, p, st, sc, r, ref allowances @ ..], None) => {
                let farm = Farm::open(nodes, Costs::new(m, p, st, sc, r), allowances)?;
                text::print(answers, b"open", &[nodes, farm.show_count()]);
                self.farm = Some(farm);
            }
            (b"job", fields, Some(farm)) => {
                let accepted = farm.offer(read_offer(fields)?)?;
                print_accepted(answers, b"yes", accepted);
            }
            (b"quote", fields, Some(farm)) => {
                let accepted = farm.quote(read_offer(fields)?)?;
                print_accepted(answers, b"quote", accepted);
            }
            (b"clock", &[time], Some(farm)) => {
                let issued = farm.move_clock(time, &mut self.timetable)?;
                print_chunks(answers, &self.timetable[..issued]);
                text::print(answers, b"clock", &[time, issued as u64]);
            }
            (b"withdraw", &[job], Some(farm)) => {
                farm.withdraw(job)?;
                text::print(answers, b"gone", &[job]);
            }
            (b"account", &[show], Some(farm)) => {
                let account = farm.account(show)?;
                text::print(answers, b"account", &[show, account.held, account.charged]);
            }
            _ => return Err(Refusal::Unreadable),
        }
        Ok(())
    }

    pub fn farm(&self) -> Option<&Farm<W>> {
        self.farm.as_ref()
    }

    /// The answers since they were last cleared.
    pub fn answers(&mut self) -> &mut Vec<u8> {
        &mut self.answers
    }
}

// What the farm shows; of one that is not opened yet every figure is 0.
impl<W: Walk> Session<W> {
    pub fn clock(&self) -> u64 {
        self.farm().map_or(0, Farm::clock)
    }

    pub fn show_count(&self) -> u64 {
        self.farm().map_or(0, Farm::show_count)
    }

    /// The greatest job number so far.
    pub fn numbers_used(&self) -> u64 {
        self.farm().map_or(0, Farm::numbers_used)
    }

    pub fn waiting(&self) -> usize {
        self.farm().map_or(0, Farm::waiting)
    }

    /// The waiting jobs' numbers, in the plan's order.
    pub fn numbers(&self) -> Vec<u64> {
        self.farm().into_iter().flat_map(Farm::numbers).collect()
    }

    /// The waiting jobs' starts, in order.
    pub fn starts(&self) -> Vec<u64> {
        self.farm().into_iter().flat_map(Farm::starts).collect()
    }

    /// The last waiting job's start, or the clock where none waits.
    pub fn last_start(&self) -> u64 {
        let last = self.farm().and_then(|farm| farm.starts().last());
        last.unwrap_or(self.clock())
    }
}

fn read_offer(fields: &[u64]) -> Result<Offer, Refusal> {
    Offer::from_fields(fields).ok_or(Refusal::Unreadable)
}

/// An offer and a quote are answered alike but for the word.
fn print_accepted(answers: &mut Vec<u8>, word: &[u8], accepted: Accepted) {
    let nodes = accepted.nodes as u64;
    let fields = [accepted.job, accepted.start, accepted.finish, nodes];
    text::print(answers, word, &fields);
}

fn print_chunks(answers: &mut Vec<u8>, records: &[Record]) {
    for record in records {
        let fields = [
            record.job,
            record.show,
            record.node,
            record.units,
            record.send_start,
            record.send_end,
            record.finish,
            record.compute_end,
        ];
        text::print(answers, b"chunk", &fields);
    }
}

/// Cuts blocks of bytes into lines and answers them.
struct Lines<'a, W> {
    session: &'a mut Session<W>,
    /// The bytes so far of a line that its block did not end.
    begun: Vec<u8>,
    /// The line under way is too long and was answered.
    skipping: bool,
}

impl<W: Walk> Lines<'_, W> {
    fn block(&mut self, block: &[u8], output: &mut impl Write) -> io::Result<()> {
        let mut rest = block;
        while let Some(end) = rest.iter().position(|&byte| byte == b'\n') {
            self.end_line(&rest[..end]);
            rest = &rest[end + 1..];
            if self.session.answers.len() > MANY_ANSWER_BYTES {
                self.write(output)?;
            }
        }
        self.carry(rest);
        self.write(output)?;
        output.flush()
    }

    fn end_line(&mut self, part: &[u8]) {
        if self.skipping {
            self.skipping = false;
        } else if self.begun.is_empty() {
            self.session.line(part);
        } else {
            self.keep(part);
            self.session.line(&self.begun);
            self.begun.clear();
        }
    }

    /// Keeps part of a line, but no more than shows that it is too long.
    fn keep(&mut self, part: &[u8]) {
        let room = MOST_LINE_BYTES + 1 - self.begun.len();
        self.begun.extend_from_slice(&part[..room.min(part.len())]);
    }

    /// Keeps the start of a line; one already too long is answered at once.
    fn carry(&mut self, part: &[u8]) {
        if self.skipping {
            return;
        }
        self.keep(part);
        if self.begun.len() > MOST_LINE_BYTES {
            self.session.line(&self.begun);
            self.begun.clear();
            self.skipping = true;
        }
    }

    /// At the end of input: the last line may lack its newline.
    fn end(&mut self, output: &mut impl Write) -> io::Result<()> {
        if !self.begun.is_empty() {
            self.session.line(&self.begun);
        }
        self.write(output)?;
        output.flush()
    }

    fn write(&mut self, output: &mut impl Write) -> io::Result<()> {
        output.write_all(&self.session.answers)?;
        self.session.answers.clear();
        Ok(())
    }
}

/// Answers all lines of the input. Each block read is answered before the next
/// is asked for, so a day typed into a pipe is answered line by line.
pub fn run<W: Walk>(mut input: impl Read, mut output: impl Write) -> io::Result<()> {
    let mut session = Session::<W>::default();
    let mut lines = Lines {
        session: &mut session,
        begun: Vec::new(),
        skipping: false,
    };
    let mut block = vec![0; BLOCK];
    loop {
        match input.read(&mut block) {
            Ok(0) => return lines.end(&mut output),
            Ok(length) => lines.block(&block[..length], &mut output)?,
            Err(error) if error.kind() == ErrorKind::Interrupted => {}
            Err(error) => return Err(error),
        }
    }
}

/// The quick walk's answers to a whole day.
pub fn answers(day: &[u8]) -> Vec<u8> {
    answers_by::<Quick>(day)
}

/// Any walk's answers to a whole day.
pub fn answers_by<W: Walk>(day: &[u8]) -> Vec<u8> {
    let mut answers = Vec::new();
    // Reading a slice and writing a vector cannot fail.
    let _ = run::<W>(day, &mut answers);
    answers
}
