//! Long days, to measure programs on.

use crate::days::farm_numbers;
use crate::farm::Offer;
use crate::limits::{LAST_TICK, MOST_DIGITS, MOST_UNITS};
use crate::program::Session;
use crate::quick::Quick;
use crate::random::Random;
use crate::share::{Costs, Windows};
use crate::text;
use std::ops::RangeInclusive;

/// Jobs that wait in a day with a full queue once it is under way.
const WAITING: usize = 120;

/// Lines of such a day.
const QUEUE_LINES: usize = 6_000;

/// The last waiting job's, on days whose walks are the same.
const LAST_DEADLINE: u64 = 1_000_000;

const COSTS: Costs = Costs {
    send: 3,
    compute: 200,
    link_setup: 5,
    node_setup: 40,
    return_cost: 0,
};

const NODES: u64 = 64;

/// A long day and its name.
pub struct LongDay {
    pub name: &'static str,
    pub lines: usize,
    pub bytes: Vec<u8>,
}

/// All long days; each has the same bytes every time.
pub fn long_days() -> Vec<LongDay> {
    let mut days = vec![
        LOOSE.written(),
        TIGHT.written(),
        short_lines(100_000),
        MIXED.written(),
        WITHDRAWALS.written(),
        RETURNS.written(),
        QUOTES.written(),
        catalogue(100_000),
        long_runs(20_000),
    ];
    days.extend(same_walks());
    days
}

struct Writer {
    random: Random,
    session: Session<Quick>,
    day: LongDay,
}

impl Writer {
    fn new(name: &'static str, costs: Costs) -> Self {
        let mut writer = Writer {
            random: Random::new(1),
            session: Session::default(),
            day: LongDay {
                name,
                lines: 0,
                bytes: Vec::new(),
            },
        };
        writer.line(b"farm", &farm_numbers(NODES, costs, &[1_000_000; 8]));
        writer
    }

    fn raw(&mut self, line: &[u8]) {
        self.session.line(line);
        self.session.answers().clear();
        self.day.bytes.extend_from_slice(line);
        self.day.bytes.push(b'\n');
        self.day.lines += 1;
    }

    fn line(&mut self, kind: &[u8], numbers: &[u64]) {
        self.raw(&text::line(kind, numbers));
    }

    /// The same with zeros before the numbers, so that each has 8 digits at least.
    fn line_of_long_numbers(&mut self, kind: &[u8], numbers: &[u64]) {
        let mut line = kind.to_vec();
        for number in numbers {
            let digits = self.random.between(8, MOST_DIGITS as u64) as usize;
            line.extend_from_slice(format!("\t{number:0digits$}").as_bytes());
        }
        self.raw(&line);
    }

    /// A line with an offer's fields: `job` or `quote`.
    fn offer(&mut self, kind: &[u8], offer: Offer) {
        self.line(kind, &offer.fields());
    }

    /// Whether the offer would be granted.
    fn gives(&self, offer: Offer) -> bool {
        let farm = self.session.farm().cloned();
        farm.is_some_and(|mut farm| farm.quote(offer).is_ok())
    }
}

/// A day of offers with about 120 jobs waiting.
#[derive(Clone, Copy)]
struct QueueDay {
    name: &'static str,
    return_cost: u64,
    /// Deadlines quoted before each offer.
    quotes: usize,
    /// What happens whenever more wait.
    make_room: fn(&mut Writer),
    compute: fn(&mut Random) -> Option<u64>,
    deadline: fn(&mut Writer, Costs, size: u64) -> u64,
}

const LOOSE: QueueDay = QueueDay {
    name: "loose deadlines, full queue",
    return_cost: 0,
    quotes: 0,
    make_room: begin_a_few,
    compute: no_compute,
    deadline: loose_deadline,
};

const TIGHT: QueueDay = QueueDay {
    name: "tight deadlines, full queue",
    deadline: tight_deadline,
    ..LOOSE
};

const MIXED: QueueDay = QueueDay {
    name: "mixed compute costs, full queue",
    compute: speech_or_music,
    ..TIGHT
};

const WITHDRAWALS: QueueDay = QueueDay {
    name: "withdrawals, full queue",
    make_room: withdraw_mostly,
    ..LOOSE
};

const RETURNS: QueueDay = QueueDay {
    name: "audio comes back, mixed compute costs, withdrawals, full queue",
    return_cost: 70,
    compute: speech_or_music,
    ..WITHDRAWALS
};

const QUOTES: QueueDay = QueueDay {
    name: "three quotes before each offer, full queue",
    quotes: 3,
    ..LOOSE
};

impl QueueDay {
    fn written(self) -> LongDay {
        let farm_costs = Costs {
            return_cost: self.return_cost,
            ..COSTS
        };
        let mut writer = Writer::new(self.name, farm_costs);
        while writer.day.lines < QUEUE_LINES {
            if writer.session.waiting() > WAITING {
                (self.make_room)(&mut writer);
            }
            let show = writer.random.between(1, 8);
            let size = writer.random.between(20, 400);
            let own = (self.compute)(&mut writer.random);
            let costs = farm_costs.with_compute(own.unwrap_or(farm_costs.compute));
            let offer = |deadline| Offer::new(show, size, deadline).with_compute(own);
            for _ in 0..self.quotes {
                let deadline = (self.deadline)(&mut writer, costs, size);
                writer.offer(b"quote", offer(deadline));
            }
            let deadline = (self.deadline)(&mut writer, costs, size);
            writer.offer(b"job", offer(deadline));
        }
        writer.day
    }
}

/// A clock move lets a few begin.
fn begin_a_few(writer: &mut Writer) {
    let fourth = writer.session.starts()[3];
    writer.line(b"clock", &[fourth]);
}

/// Any waiting job is withdrawn, so that withdrawals and offers alternate; now
/// and then the clock moves on. Deadlines must be loose: tight ones would make
/// an old job fail, and every offer behind that would be in vain.
fn withdraw_mostly(writer: &mut Writer) {
    if writer.random.once_in(16) {
        return begin_a_few(writer);
    }
    let numbers = writer.session.numbers();
    let job = writer.random.pick(&numbers);
    writer.line(b"withdraw", &[job]);
}

fn no_compute(_: &mut Random) -> Option<u64> {
    None
}

/// Half of the jobs have their own: speech is cheaper than what the farm is set
/// for, music dearer.
fn speech_or_music(random: &mut Random) -> Option<u64> {
    match random.between(0, 3) {
        0 => Some(random.between(60, 140)),
        1 => Some(random.between(240, 500)),
        _ => None,
    }
}

/// Far enough that a node or two will do.
fn loose_deadline(writer: &mut Writer, _: Costs, size: u64) -> u64 {
    writer.session.clock() + size * 500 + writer.random.between(300_000, 900_000)
}

/// Just enough for some number of nodes at the end of the queue, so that most
/// jobs need several; now and then amid the queue, where a refusal is likely.
fn tight_deadline(writer: &mut Writer, costs: Costs, size: u64) -> u64 {
    let (clock, last) = (writer.session.clock(), writer.session.last_start());
    let nodes = writer.random.between(4, 64) as usize;
    let nodes = nodes.min(size as usize / 2);
    let window = Windows::new(costs).least_window(nodes, size, LAST_TICK);
    let start = if writer.random.once_in(4) {
        clock + (last - clock) / 2
    } else {
        last
    };
    start + window * 3 / 2 + writer.random.between(0, 2_000)
}

/// Three days whose walks are the same up to the last waiting job, so that their
/// times tell what a quote costs beside an offer that is refused at the end: such
/// offers, the same lines as quotes, and these on a farm that gives them. The last
/// day also books the last job, each time on many nodes.
fn same_walks() -> [LongDay; 3] {
    let mut refused = all_but_one("offers refused at the last job, full queue");
    let mut quoted = all_but_one("the same as quotes, refused, full queue");
    let mut given = all_but_one("the same as quotes, given, full queue");
    let most = most_units(&refused, LAST_DEADLINE);
    let last = Offer::new(1, most, LAST_DEADLINE);
    refused.offer(b"job", last);
    quoted.offer(b"job", last);
    // With time to spare.
    given.offer(b"job", Offer::new(1, most - most / 16, LAST_DEADLINE));
    while refused.day.lines < QUEUE_LINES {
        let offer = some_offer(&mut refused.random, 100_000..=290_000);
        if !refused.gives(offer) && given.gives(offer) {
            refused.offer(b"job", offer);
            quoted.offer(b"quote", offer);
            given.offer(b"quote", offer);
        }
    }
    [refused.day, quoted.day, given.day]
}

/// The jobs that wait before the last one; offers come before all of them.
fn all_but_one(name: &'static str) -> Writer {
    let mut writer = Writer::new(name, COSTS);
    while writer.session.waiting() + 1 < WAITING {
        let offer = some_offer(&mut writer.random, 300_000..=900_000);
        writer.offer(b"job", offer);
    }
    writer
}

fn some_offer(random: &mut Random, deadlines: RangeInclusive<u64>) -> Offer {
    let (show, size) = (random.between(1, 8), random.between(20, 400));
    Offer::new(
        show,
        size,
        random.between(*deadlines.start(), *deadlines.end()),
    )
}

/// The most units of a job behind all others.
fn most_units(writer: &Writer, deadline: u64) -> u64 {
    let bits = (0..MOST_UNITS.ilog2()).rev().map(|bit| 1 << bit);
    bits.fold(0, |most, bit| {
        if writer.gives(Offer::new(1, most + bit, deadline)) {
            most + bit
        } else {
            most
        }
    })
}

/// Short lines with few jobs waiting: accounts, clock moves, refusals.
fn short_lines(lines: usize) -> LongDay {
    let mut writer = Writer::new("short lines, few jobs waiting", COSTS);
    while writer.day.lines < lines {
        let (show, clock) = (writer.random.between(1, 8), writer.session.clock());
        match writer.random.between(0, 9) {
            0..=3 => writer.line(b"account", &[show]),
            4..=6 => writer.line(b"clock", &[clock + show]),
            7 => writer.offer(b"job", Offer::new(show, MOST_UNITS, clock + 9)),
            8 => writer.line(b"account", &[show + 8]),
            _ if writer.session.starts().len() < 4 => {
                writer.offer(b"job", Offer::new(show, show, clock + 5_000));
            }
            _ => writer.line(b"clock", &[]),
        }
    }
    writer.day
}

/// Short lines of long numbers with few jobs waiting, all of them readable, so that
/// reading is much of the work.
fn catalogue(lines: usize) -> LongDay {
    let mut writer = Writer::new("long numbers, few jobs waiting", COSTS);
    while writer.day.lines < lines {
        let (show, clock) = (writer.random.between(1, 8), writer.session.clock());
        let fields = Offer::new(show, 9 * show, clock + 5_000).fields();
        match (writer.random.between(0, 29), &writer.session.numbers()[..]) {
            (0..=21, _) => writer.line_of_long_numbers(b"account", &[show]),
            (22..=26, _) => writer.line_of_long_numbers(b"clock", &[clock + 90 * show]),
            (27, &[job, ..]) => writer.line_of_long_numbers(b"withdraw", &[job]),
            (28, &[_, ..]) => writer.line_of_long_numbers(b"quote", &fields),
            _ => writer.line_of_long_numbers(b"job", &fields),
        }
    }
    writer.day
}

/// Every other line holds hundreds of bytes without a tab and cannot be read.
fn long_runs(lines: usize) -> LongDay {
    let mut writer = Writer::new("long runs without a separator", COSTS);
    while writer.day.lines < lines {
        let (show, clock) = (writer.random.between(1, 8), writer.session.clock());
        match writer.random.between(0, 3) {
            0 => writer.line(b"clock", &[clock + 90 * show]),
            1 => writer.offer(b"job", Offer::new(show, 9 * show, clock + 5_000)),
            _ => writer.line(b"account", &[show]),
        }
        let r = &mut writer.random;
        let run = vec![r.pick(b"09x\0\x89\xff"); r.between(900, 1_000) as usize];
        let (before, behind) =
            r.pick(&[("", ""), ("clock\t", ""), ("", "\t1"), ("job\t1\t", "\t9")]);
        writer.raw(&[before.as_bytes(), &run, behind.as_bytes()].concat());
    }
    writer.day
}
