//! The farm and its calls.
//!
//! A call takes the farm by an exclusive borrow, so it is a value that nothing
//! else writes, and hands the next one back in the same place. A refused call
//! changes nothing.

use crate::job::{Begun, Job, Plan, Record, Walk};
use crate::limits::*;
use crate::node::Ranking;
use crate::refusal::Refusal;
use crate::share::{Costs, Windows};

#[derive(Clone, Debug)]
pub struct Farm<W> {
    begun: Begun,
    plan: Plan,
    walk: W,
    numbers_used: u64,
    shows: Vec<Held>,
}

#[derive(Clone, Copy, Debug)]
struct Held {
    allowance: u64,
    ticks: u64,
}

/// What an offer or a quote asks for, in the order of its line.
#[derive(Clone, Copy, Debug, PartialEq, Eq)]
pub struct Offer {
    pub show: u64,
    pub size: u64,
    pub deadline: u64,
    /// The job's own p; the farm's serves where there is none.
    pub compute: Option<u64>,
}

impl Offer {
    /// At the farm's p.
    pub fn new(show: u64, size: u64, deadline: u64) -> Self {
        Offer {
            show,
            size,
            deadline,
            compute: None,
        }
    }

    pub fn with_compute(self, compute: impl Into<Option<u64>>) -> Self {
        let compute = compute.into();
        Offer { compute, ..self }
    }

    pub fn by(self, deadline: u64) -> Self {
        Offer { deadline, ..self }
    }

    /// Reads a line's numbers; none if they are too few or too many.
    pub fn from_fields(fields: &[u64]) -> Option<Self> {
        let (&[show, size, deadline], rest) = fields.split_first_chunk()?;
        let offer = Offer::new(show, size, deadline);
        match *rest {
            [] => Some(offer),
            [compute] => Some(offer.with_compute(compute)),
            _ => None,
        }
    }

    /// The numbers of its line.
    pub fn fields(self) -> Vec<u64> {
        let fields = [self.show, self.size, self.deadline].into_iter();
        fields.chain(self.compute).collect()
    }
}

/// The answer to a granted offer or quote.
#[derive(Clone, Copy, Debug, PartialEq, Eq)]
pub struct Accepted {
    pub job: u64,
    pub start: u64,
    pub finish: u64,
    pub nodes: usize,
}

/// A show's ticks.
#[derive(Clone, Copy, Debug, PartialEq, Eq)]
pub struct Account {
    pub held: u64,
    pub charged: u64,
}

/// Stops the call with a refusal unless its question is answered yes.
fn ask(yes: bool, refusal: Refusal) -> Result<(), Refusal> {
    if yes {
        Ok(())
    } else {
        Err(refusal)
    }
}

impl<W: Walk> Farm<W> {
    pub fn open(nodes: u64, costs: Costs, allowances: &[u64]) -> Result<Self, Refusal> {
        let nodes = usize::try_from(nodes).unwrap_or(usize::MAX);
        ask((1..=MOST_NODES).contains(&nodes), Refusal::NodeCount)?;
        let costs_within = (1..=MOST_SEND_COST).contains(&costs.send)
            && (1..=MOST_COMPUTE_COST).contains(&costs.compute)
            && costs.link_setup <= MOST_SETUP
            && costs.node_setup <= MOST_SETUP
            && costs.return_cost <= MOST_RETURN_COST;
        ask(costs_within, Refusal::Costs)?;
        let shows_within = (1..=MOST_SHOWS).contains(&allowances.len())
            && allowances.iter().all(|&ticks| ticks <= LAST_TICK);
        ask(shows_within, Refusal::Allowances)?;
        let held = |&allowance: &u64| Held {
            allowance,
            ticks: 0,
        };
        Ok(Farm {
            begun: Begun {
                windows: Windows::new(costs),
                clock: 0,
                link_free: 0,
                ranking: Ranking::new(nodes),
            },
            plan: Plan::default(),
            walk: W::default(),
            numbers_used: 0,
            shows: allowances.iter().map(held).collect(),
        })
    }

    /// The answer that an offer would get. The farm stays as it is; only the
    /// walk's own memory is written.
    pub fn quote(&mut self, offer: Offer) -> Result<Accepted, Refusal> {
        let new = self.new_job(offer)?;
        let booked = self.walk.book(&self.begun, self.plan.queue(Some(new)));
        ask(booked, Refusal::NotBookable)?;
        let (booking, chunks) = self.walk.walked().booking_of(new);
        let finish = chunks.iter().map(|chunk| chunk.free.time()).max();
        Ok(Accepted {
            job: new.number,
            start: booking.start,
            finish: finish.unwrap_or(booking.start),
            nodes: booking.nodes,
        })
    }

    /// The job that an offer would become: asks all that comes before the walk.
    fn new_job(&self, offer: Offer) -> Result<Job, Refusal> {
        self.show_place(offer.show)?;
        ask((1..=MOST_UNITS).contains(&offer.size), Refusal::Size)?;
        let compute = offer.compute.unwrap_or(self.costs().compute);
        ask((1..=MOST_COMPUTE_COST).contains(&compute), Refusal::Costs)?;
        let in_time = self.begun.clock < offer.deadline && offer.deadline <= LAST_TICK;
        ask(in_time, Refusal::Deadline)?;
        let room = self.waiting() < MOST_WAITING && self.numbers_used < MOST_JOB_NUMBERS;
        ask(room, Refusal::QueueFull)?;
        Ok(Job {
            number: self.numbers_used + 1,
            show: offer.show,
            size: offer.size,
            deadline: offer.deadline,
            compute,
        })
    }

    /// Takes what a quote would give: its number is used, and the plan follows
    /// its walk.
    pub fn offer(&mut self, offer: Offer) -> Result<Accepted, Refusal> {
        let accepted = self.quote(offer)?;
        self.numbers_used = accepted.job;
        self.plan.follow(self.walk.walked());
        Ok(accepted)
    }

    /// Moves the clock, issues the chunks of the jobs that begin, and answers
    /// how many lines of the lent timetable it wrote.
    pub fn move_clock(&mut self, time: u64, timetable: &mut [Record]) -> Result<usize, Refusal> {
        let in_range = self.begun.clock <= time && time <= LAST_TICK;
        ask(in_range, Refusal::Time)?;
        let jobs = self.plan.bookings.partition_point(|b| b.start <= time);
        let lines = self.write_first(jobs, timetable)?;
        self.hold(&timetable[..lines]);
        if jobs > 0 {
            self.begin(jobs, lines);
        }
        self.begun.clock = time;
        Ok(lines)
    }

    /// Raises the held ticks by what is issued. A chunk counts from its own send:
    /// no show pays while a node waits for the sends before, though the node is the
    /// job's from the start on.
    fn hold(&mut self, issued: &[Record]) {
        for chunk in issued {
            let held = &mut self.shows[chunk.show as usize - 1].ticks;
            *held += chunk.finish - chunk.send_start;
        }
    }

    /// Takes the first jobs, at least one, out of the plan: they never move again.
    fn begin(&mut self, jobs: usize, chunks: usize) {
        let plan = &mut self.plan;
        let issued = plan.chunks.range(..chunks);
        self.begun.ranking = self.begun.ranking.after(issued.map(|chunk| chunk.free));
        self.begun.link_free = plan.chunks[chunks - 1].send_end;
        plan.as_walked = plan.as_walked.saturating_sub(jobs);
        plan.chunks.drain(..chunks);
        plan.bookings.drain(..jobs);
    }

    /// Takes a waiting job out of the plan. Nothing is walked, and its number
    /// stays used.
    pub fn withdraw(&mut self, job: u64) -> Result<(), Refusal> {
        let place = self.numbers().position(|number| number == job);
        self.plan.remove(place.ok_or(Refusal::NotWaiting)?);
        Ok(())
    }

    pub fn account(&self, show: u64) -> Result<Account, Refusal> {
        let Held { allowance, ticks } = self.shows[self.show_place(show)?];
        Ok(Account {
            held: ticks,
            charged: ticks.saturating_sub(allowance),
        })
    }

    /// Writes the lines of every waiting booking and answers their count.
    pub fn show_waiting(&self, timetable: &mut [Record]) -> Result<usize, Refusal> {
        self.write_first(self.waiting(), timetable)
    }

    fn write_first(&self, jobs: usize, timetable: &mut [Record]) -> Result<usize, Refusal> {
        let lines = self.plan.chunks_of_first(jobs);
        ask(lines <= timetable.len(), Refusal::TimetableFull)?;
        self.plan.write_first(jobs, self.costs(), timetable);
        Ok(lines)
    }

    fn show_place(&self, show: u64) -> Result<usize, Refusal> {
        ask((1..=self.show_count()).contains(&show), Refusal::Show)?;
        Ok(show as usize - 1)
    }

    pub fn show_count(&self) -> u64 {
        self.shows.len() as u64
    }

    /// The farm's own costs.
    pub fn costs(&self) -> Costs {
        self.begun.windows.costs()
    }

    pub fn clock(&self) -> u64 {
        self.begun.clock
    }

    pub fn waiting(&self) -> usize {
        self.plan.bookings.len()
    }

    /// The greatest job number so far, 0 before one.
    pub fn numbers_used(&self) -> u64 {
        self.numbers_used
    }

    /// The number of each waiting job, in the plan's order.
    pub fn numbers(&self) -> impl Iterator<Item = u64> + '_ {
        self.plan.bookings.iter().map(|booking| booking.job.number)
    }

    /// The start of each waiting job, in order.
    pub fn starts(&self) -> impl Iterator<Item = u64> + '_ {
        self.plan.bookings.iter().map(|booking| booking.start)
    }
}
