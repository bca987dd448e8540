//! The exhaustive walk, word for word from the paper: every start, every set
//! of free nodes, every share list. For tiny days only.

use crate::job::{Begun, Booking, Chunk, Job, Queue, Walk, Walked};
use crate::node::FreeNode;
use crate::share::Costs;
use std::cmp::Reverse;

#[derive(Clone, Debug, Default)]
pub struct Exhaustive(Walked);

/// One way to run a job at a given start. The order of the fields is the order
/// in which the paper chooses: the least of all ways is taken.
#[derive(Clone, Debug, PartialEq, Eq, PartialOrd, Ord)]
struct Way {
    node_count: usize,
    finish: u64,
    shares: Reverse<Vec<u64>>,
    /// Free time and number of each node, in chunk order.
    nodes: Vec<(u64, u64)>,
}

/// The walk's free times.
struct Course {
    farm_costs: Costs,
    clock: u64,
    link_free: u64,
    /// By node, the first at 0.
    node_free: Vec<u64>,
}

impl Walk for Exhaustive {
    fn book(&mut self, begun: &Begun, queue: Queue) -> bool {
        let mut course = Course::new(begun);
        let mut jobs: Vec<Job> = queue.jobs().collect();
        // As the paper words it, whatever the plan's order.
        jobs.sort_by_key(|job| (job.deadline, job.number));
        self.0 = Walked::default();
        for job in jobs {
            match course.earliest(job) {
                Some((start, way)) => course.take(job, start, &way, &mut self.0),
                None => return false,
            }
        }
        true
    }

    fn walked(&self) -> &Walked {
        &self.0
    }
}

impl Course {
    fn new(begun: &Begun) -> Self {
        let mut nodes = begun.ranking.row().to_vec();
        nodes.sort_by_key(|node| node.node());
        Course {
            farm_costs: begun.windows.costs(),
            clock: begun.clock,
            link_free: begun.link_free,
            node_free: nodes.iter().map(|node| node.time()).collect(),
        }
    }

    /// The first start, tick by tick, with a way to end the job in time.
    fn earliest(&self, job: Job) -> Option<(u64, Way)> {
        (self.clock.max(self.link_free)..=job.deadline)
            .find_map(|start| Some((start, self.best_way(job, start)?)))
    }

    fn best_way(&self, job: Job, start: u64) -> Option<Way> {
        let costs = job.costs(self.farm_costs);
        let mut best: Option<Way> = None;
        for set in 1u64..1 << self.node_free.len() {
            let nodes = self.ranked(set);
            if nodes.iter().any(|&(free, _)| free > start) {
                continue;
            }
            for_each_share_list(job.size, nodes.len(), &mut Vec::new(), &mut |shares| {
                let spans = spans(costs, start, shares);
                let finish = spans.map(|(_, finish)| finish).max().unwrap_or(start);
                let way = Way {
                    node_count: nodes.len(),
                    finish,
                    shares: Reverse(shares.to_vec()),
                    nodes: nodes.clone(),
                };
                if finish <= job.deadline && best.as_ref().is_none_or(|best| way < *best) {
                    best = Some(way);
                }
            });
        }
        best
    }

    /// The nodes of a set by free time, equal ones by number.
    fn ranked(&self, set: u64) -> Vec<(u64, u64)> {
        let mut nodes: Vec<(u64, u64)> = (0..self.node_free.len())
            .filter(|node| set >> node & 1 == 1)
            .map(|node| (self.node_free[node], node as u64 + 1))
            .collect();
        nodes.sort();
        nodes
    }

    /// Books the job this way and updates the free times.
    fn take(&mut self, job: Job, start: u64, way: &Way, walked: &mut Walked) {
        let shares = &way.shares.0;
        let spans = spans(job.costs(self.farm_costs), start, shares);
        for ((&units, (send_end, finish)), &(_, node)) in shares.iter().zip(spans).zip(&way.nodes) {
            self.link_free = send_end;
            self.node_free[node as usize - 1] = finish;
            let free = FreeNode::new(node, finish);
            walked.chunks.push(Chunk {
                units,
                send_end,
                free,
            });
        }
        let nodes = way.node_count;
        walked.bookings.push(Booking { job, start, nodes });
    }
}

/// Send end and chunk finish of each share, sends back to back.
fn spans(costs: Costs, start: u64, shares: &[u64]) -> impl Iterator<Item = (u64, u64)> + '_ {
    shares.iter().scan(start, move |send_end, &units| {
        *send_end += costs.send_ticks(units);
        Some((*send_end, costs.finish(*send_end, units)))
    })
}

/// Hands on every list of `places` shares of at least 1 that add up to `size`,
/// each behind the shares already in `list`.
pub fn for_each_share_list(
    size: u64,
    places: usize,
    list: &mut Vec<u64>,
    each: &mut dyn FnMut(&[u64]),
) {
    if places == 0 {
        if size == 0 {
            each(list);
        }
        return;
    }
    for units in 1..=size {
        list.push(units);
        for_each_share_list(size - units, places - 1, list, each);
        list.pop();
    }
}
