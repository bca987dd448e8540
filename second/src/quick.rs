//! The quick walk, earliest deadline first.
//!
//! Jobs before the new one in deadline order keep their bookings, all of them
//! where there is none, and only the jobs after it are booked again. A walk over
//! them would give the same: they start after the clock, so a later clock takes no
//! start from them and adds none before, and jobs begin from the front of the
//! plan, so the free times they meet are the ones they met before. Each is booked
//! by its own costs, so the new job's make no difference to them.
//!
//! Since the last walk a job may have been withdrawn. Those behind it then meet
//! other free times, so none of them is kept: one may move, or even fail.

use crate::job::{Begun, Booking, Chunk, Job, Plan, Queue, Walk, Walked};
use crate::node::{FreeNode, MovingRanking};
use crate::share::Windows;

/// The quick walk under way; its memory is kept from walk to walk.
#[derive(Clone, Debug, Default)]
pub struct Quick {
    /// No start precedes this: the clock or the link's free time.
    ready: u64,
    ranking: MovingRanking,
    walked: Walked,
    /// The nodes that one job takes.
    taken: Vec<FreeNode>,
}

/// The same walk with no booking kept: every job of the queue is booked. It is
/// there to be timed beside a planner that keeps none.
#[derive(Clone, Debug, Default)]
pub struct Whole(Quick);

impl Walk for Quick {
    fn book(&mut self, begun: &Begun, queue: Queue) -> bool {
        self.book_behind(begun, queue, queue.as_walked())
    }

    fn walked(&self) -> &Walked {
        &self.walked
    }
}

impl Walk for Whole {
    fn book(&mut self, begun: &Begun, queue: Queue) -> bool {
        self.0.book_behind(begun, queue, 0)
    }

    fn walked(&self) -> &Walked {
        self.0.walked()
    }
}

impl Quick {
    /// Books the jobs behind the plan's first bookings, which are kept.
    fn book_behind(&mut self, begun: &Begun, queue: Queue, kept: usize) -> bool {
        self.begin(begun, queue.plan, kept);
        // Worked out again only where a job's costs differ from the last one's.
        let mut windows = begun.windows;
        queue.jobs_behind(kept).all(|job| {
            windows.change(job.costs(begun.windows.costs()));
            self.book_next(&windows, job)
        })
    }

    /// Begins behind the kept bookings.
    fn begin(&mut self, begun: &Begun, plan: &Plan, kept: usize) {
        self.walked.kept = kept;
        self.walked.bookings.clear();
        self.walked.chunks.clear();
        let kept_chunks = plan.chunks_of_first(kept);
        self.ready = begun.clock.max(begun.link_free);
        if kept_chunks == 0 {
            self.ranking.begin(&begun.ranking);
            return;
        }
        let kept = plan.chunks.range(..kept_chunks).map(|chunk| chunk.free);
        self.ranking.begin(&begun.ranking.after(kept));
        self.ready = self.ready.max(plan.chunks[kept_chunks - 1].send_end);
    }

    /// Books one job behind those booked so far, if that can be.
    fn book_next(&mut self, windows: &Windows, job: Job) -> bool {
        let Some((start, nodes)) = self.earliest_start(windows, job) else {
            return false;
        };
        let window = windows.least_window(nodes, job.size, job.deadline - start);
        self.taken.clear();
        let shares = windows.shares(job.size, window);
        for (share, free) in shares.zip(self.ranking.row()) {
            let free = FreeNode::new(free.node(), start + share.finish);
            self.taken.push(free);
            self.walked.chunks.push(Chunk {
                units: share.units,
                send_end: start + share.send_end,
                free,
            });
            self.ready = start + share.send_end;
        }
        self.taken.sort_unstable();
        self.ranking.replace_first(&self.taken);
        self.walked.bookings.push(Booking { job, start, nodes });
        true
    }

    /// The earliest start at which the free nodes end the job in time, and the
    /// fewest nodes that do. A start needs at least as many nodes as an earlier
    /// one, so where too few are free the next to try is when that many are.
    fn earliest_start(&self, windows: &Windows, job: Job) -> Option<(u64, usize)> {
        let row = self.ranking.row();
        let mut start = self.ready.max(row[0].time());
        loop {
            let window = job.deadline.saturating_sub(start);
            let nodes = windows.fewest_nodes(job.size, window, row.len())?;
            let all_free = row[nodes - 1].time();
            if all_free <= start {
                return Some((start, nodes));
            }
            start = all_free;
        }
    }
}
