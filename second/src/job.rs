//! Jobs, their bookings, the plan of the waiting ones, and what a walk is.

use crate::node::{FreeNode, Ranking};
use crate::share::{Costs, Windows};
use std::collections::VecDeque;

/// A job as its acceptance fixed it.
#[derive(Clone, Copy, Debug, PartialEq, Eq)]
pub struct Job {
    pub number: u64,
    pub show: u64,
    pub size: u64,
    pub deadline: u64,
    /// p: the offer's own, or the farm's where it gave none.
    pub compute: u64,
}

impl Job {
    /// The farm's costs with the job's p.
    pub fn costs(self, farm: Costs) -> Costs {
        farm.with_compute(self.compute)
    }
}

/// A waiting job with the start and the number of nodes a walk gave it.
#[derive(Clone, Copy, Debug, PartialEq, Eq)]
pub struct Booking {
    pub job: Job,
    pub start: u64,
    pub nodes: usize,
}

/// One node's part of a booking. Its send starts where the one before ended,
/// the first at the booking's start.
#[derive(Clone, Copy, Debug, PartialEq, Eq)]
pub struct Chunk {
    pub units: u64,
    pub send_end: u64,
    /// The node, and the chunk's finish as the time it is free again.
    pub free: FreeNode,
}

/// A line of the timetable.
#[derive(Clone, Copy, Debug, Default, PartialEq, Eq)]
pub struct Record {
    pub job: u64,
    pub show: u64,
    pub node: u64,
    pub units: u64,
    pub send_start: u64,
    pub send_end: u64,
    pub finish: u64,
    /// By the job's own p: before the finish by what the way back takes.
    pub compute_end: u64,
}

/// What the begun jobs left: where every walk begins.
#[derive(Clone, Debug)]
pub struct Begun {
    /// By the farm's own costs.
    pub windows: Windows,
    pub clock: u64,
    pub link_free: u64,
    pub ranking: Ranking,
}

/// The waiting bookings by deadline, equal deadlines by number, and their
/// chunks in the same order. As each start waits for the link, starts rise in
/// this order too, so jobs begin from the front.
#[derive(Clone, Debug, Default, PartialEq, Eq)]
pub struct Plan {
    pub bookings: VecDeque<Booking>,
    pub chunks: VecDeque<Chunk>,
    /// The first so many bookings are what a walk would give them again. Those
    /// behind a withdrawn one met free times that are now earlier.
    pub as_walked: usize,
}

impl Plan {
    /// The number of chunks of the first bookings.
    pub fn chunks_of_first(&self, bookings: usize) -> usize {
        self.bookings.range(..bookings).map(|b| b.nodes).sum()
    }

    /// Its jobs to be walked, with a new one or alone.
    pub fn queue(&self, new: Option<Job>) -> Queue<'_> {
        Queue { plan: self, new }
    }

    /// Follows a walk, whose first bookings are the plan's own.
    pub fn follow(&mut self, walked: &Walked) {
        let kept_chunks = self.chunks_of_first(walked.kept);
        self.bookings.truncate(walked.kept);
        self.chunks.truncate(kept_chunks);
        self.bookings.extend(&walked.bookings);
        self.chunks.extend(&walked.chunks);
        self.as_walked = self.bookings.len();
    }

    /// Takes one booking out; the others stay as they are.
    pub fn remove(&mut self, place: usize) {
        let first = self.chunks_of_first(place);
        if let Some(booking) = self.bookings.remove(place) {
            self.chunks.drain(first..first + booking.nodes);
            self.as_walked = self.as_walked.min(place);
        }
    }

    /// Writes the timetable lines of the first bookings on a farm of these costs.
    pub fn write_first(&self, bookings: usize, farm_costs: Costs, timetable: &mut [Record]) {
        let mut chunks = self.chunks.iter();
        let mut lines = timetable.iter_mut();
        for booking in self.bookings.range(..bookings) {
            let costs = booking.job.costs(farm_costs);
            let mut send_start = booking.start;
            for (chunk, line) in chunks.by_ref().zip(lines.by_ref()).take(booking.nodes) {
                *line = Record {
                    job: booking.job.number,
                    show: booking.job.show,
                    node: chunk.free.node(),
                    units: chunk.units,
                    send_start,
                    send_end: chunk.send_end,
                    finish: chunk.free.time(),
                    compute_end: costs.compute_end(chunk.send_end, chunk.units),
                };
                send_start = chunk.send_end;
            }
        }
    }
}

/// The jobs that a walk books: the waiting ones, and for an offer the new one. There
/// may be none at all.
#[derive(Clone, Copy, Debug)]
pub struct Queue<'a> {
    pub plan: &'a Plan,
    pub new: Option<Job>,
}

impl<'a> Queue<'a> {
    /// In the walk's order: by deadline, equal ones by number, the new one last.
    pub fn jobs(self) -> impl Iterator<Item = Job> + 'a {
        self.jobs_behind(0)
    }

    /// The same without the first so many waiting jobs, which come before the new one.
    pub fn jobs_behind(self, first: usize) -> impl Iterator<Item = Job> + 'a {
        let place = self.place_of_new();
        let bookings = &self.plan.bookings;
        let earlier = bookings.range(first..place).map(|b| b.job);
        let later = bookings.range(place..).map(|b| b.job);
        earlier.chain(self.new).chain(later)
    }

    /// The first so many bookings of the plan are what a walk of this queue would
    /// give: the new job comes behind them.
    pub fn as_walked(self) -> usize {
        self.plan.as_walked.min(self.place_of_new())
    }

    /// Behind the waiting jobs with deadlines no later; behind all where no job is new.
    fn place_of_new(self) -> usize {
        let bookings = &self.plan.bookings;
        let behind = |new: Job| bookings.partition_point(|b| b.job.deadline <= new.deadline);
        self.new.map_or(bookings.len(), behind)
    }
}

/// What a walk booked, in the plan's order.
#[derive(Clone, Debug, Default)]
pub struct Walked {
    /// So many bookings of the plan come first and stay as they are.
    pub kept: usize,
    pub bookings: Vec<Booking>,
    pub chunks: Vec<Chunk>,
}

impl Walked {
    /// The new job's booking, which is the last of its deadline, and its chunks.
    pub fn booking_of(&self, new: Job) -> (Booking, &[Chunk]) {
        let up_to_new = |b: &Booking| b.job.deadline <= new.deadline;
        let place = self.bookings.partition_point(up_to_new) - 1;
        let first = self.bookings[..place].iter().map(|b| b.nodes).sum();
        let booking = self.bookings[place];
        (booking, &self.chunks[first..][..booking.nodes])
    }
}

/// A way to book a queue of jobs.
pub trait Walk: Default {
    /// Whether every job is booked; of an empty queue all are. The plan is only
    /// looked at.
    fn book(&mut self, begun: &Begun, queue: Queue) -> bool;

    /// What the last walk booked, where that was all jobs.
    fn walked(&self) -> &Walked;
}
