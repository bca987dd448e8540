//! Openings, granted and refused, and what comes before them.

use super::{Day, LONGEST};
use crate::limits::*;
use crate::share::Costs;
use crate::text::line;

impl Day {
    pub(super) fn open_tiny(&mut self, return_cost: u64) {
        let r = &mut self.random;
        let costs = Costs {
            send: r.between(1, 3),
            compute: r.between(1, 4),
            link_setup: r.pick(&[0, 0, 1, 2]),
            node_setup: r.pick(&[0, 0, 1, 3]),
            return_cost,
        };
        let nodes = r.between(1, 4);
        let allowances: Vec<u64> = (0..r.between(1, 3)).map(|_| r.between(0, 40)).collect();
        self.open(nodes, costs, &allowances);
    }

    pub(super) fn open_middling(&mut self, nodes: u64) {
        let r = &mut self.random;
        let mut costs = Costs {
            send: r.of_any_length(40).max(1),
            compute: r.of_any_length(500).max(1),
            link_setup: r.of_any_length(60),
            node_setup: r.of_any_length(300),
            return_cost: 0,
        };
        costs.return_cost = self.some_return(costs.compute);
        let r = &mut self.random;
        let shows = r.between(1, 32);
        let allowances: Vec<u64> = (0..shows).map(|_| r.of_any_length(100_000)).collect();
        self.open(nodes, costs, &allowances);
    }

    /// Refused where a figure is beyond its limit.
    pub(super) fn open_near_limits(&mut self) {
        let return_cost = self.random.near(1, MOST_RETURN_COST);
        let costs = Costs {
            send: self.random.near(1, MOST_SEND_COST),
            compute: self.random.near(1, MOST_COMPUTE_COST),
            link_setup: self.random.near(0, MOST_SETUP),
            node_setup: self.random.near(0, MOST_SETUP),
            return_cost: self.if_returning(return_cost),
        };
        let nodes = self.random.near(1, MOST_NODES as u64);
        let shows = self.random.near(1, MOST_SHOWS as u64);
        let allowances = (0..shows).map(|_| self.random.near(0, LAST_TICK).min(LAST_TICK));
        let mut allowances: Vec<u64> = allowances.collect();
        if self.random.once_in(12) && shows > 0 {
            allowances[shows as usize - 1] = LAST_TICK + 1;
        }
        self.open(nodes, costs, &allowances);
    }

    pub(super) fn open_at_the_limits(&mut self) {
        let greatest = Costs {
            send: MOST_SEND_COST,
            compute: MOST_COMPUTE_COST,
            link_setup: MOST_SETUP,
            node_setup: MOST_SETUP,
            return_cost: self.if_returning(MOST_RETURN_COST),
        };
        self.open(MOST_NODES as u64, greatest, &[0]);
    }

    /// Lines that come too early, and openings that fail.
    pub(super) fn before_opening(&mut self) {
        for _ in 0..self.random.between(1, 5) {
            if self.quotes_once_in(4) {
                self.quote_something();
            }
            match self.random.between(0, 6) {
                0..=2 => self.wrong_opening(),
                3 => self.damaged_line(),
                4 | 5 => {
                    let line = self.long_line();
                    self.raw(&line);
                }
                _ => self.stray(),
            }
        }
    }

    /// One figure wrong or several, so that the order of the questions shows; at
    /// times five numbers are all there is, which is another shape.
    pub(super) fn wrong_opening(&mut self) {
        let first_no = self.random.between(1, 3);
        let [wrong_nodes, wrong_cost, wrong_shows] =
            [1, 2, 3].map(|no| no == first_no || no > first_no && self.random.once_in(2));
        let mut nodes = self.random.between(1, MOST_NODES as u64);
        let mut costs = Costs::new(1, 1, 0, 0, MOST_RETURN_COST);
        let mut shows = self.random.pick(&[1, MOST_SHOWS]);
        if wrong_nodes {
            nodes = self.random.pick(&[0, MOST_NODES as u64 + 1, LONGEST]);
        }
        if wrong_cost {
            costs = self.with_a_wrong_cost(costs);
        }
        if wrong_shows {
            let beyond = MOST_SHOWS + 1;
            shows = self.random.pick(&[0, 0, beyond, beyond + 1, 400]);
        }
        let mut numbers = farm_numbers(nodes, costs, &vec![7; shows]);
        if self.random.once_in(5) {
            numbers.truncate(5);
        }
        self.line(b"farm", &numbers);
    }

    /// Mostly it is r that is beyond its limit.
    fn with_a_wrong_cost(&mut self, mut costs: Costs) -> Costs {
        let wrong_compute = self.wrong_compute();
        let r = &mut self.random;
        let beyond = MOST_RETURN_COST + 1;
        match r.between(0, 7) {
            0 => costs.send = r.pick(&[0, MOST_SEND_COST + 1, LONGEST]),
            1 => costs.compute = wrong_compute,
            2 => costs.link_setup = MOST_SETUP + 1,
            3 => costs.node_setup = MOST_SETUP + 1,
            _ => costs.return_cost = r.pick(&[beyond, beyond, beyond + 1, MOST_SETUP, LONGEST]),
        }
        costs
    }
}

pub(super) fn farm_line(nodes: u64, costs: Costs, allowances: &[u64]) -> Vec<u8> {
    line(b"farm", &farm_numbers(nodes, costs, allowances))
}

/// The numbers of a `farm` line.
pub fn farm_numbers(nodes: u64, costs: Costs, allowances: &[u64]) -> Vec<u64> {
    let costs = [
        costs.send,
        costs.compute,
        costs.link_setup,
        costs.node_setup,
        costs.return_cost,
    ];
    [&[nodes], &costs[..], allowances].concat()
}
