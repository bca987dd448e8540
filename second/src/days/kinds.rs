//! The kinds of day, but for those that fill the queue or the timetable.

use super::Day;
use crate::farm::Offer;
use crate::limits::{LAST_TICK, MOST_UNITS};

impl Day {
    /// Few nodes, small numbers, many equal deadlines and free times.
    pub(super) fn tiny(&mut self) {
        self.tiny = true;
        if self.random.once_in(8) {
            self.wrong_opening();
        }
        let return_cost = self.tiny_return();
        self.open_tiny(return_cost);
        for _ in 0..self.random.between(8, 30) {
            self.tiny_line(return_cost);
        }
        self.accounts();
    }

    /// A job waits longer where its audio takes longer to come back.
    fn tiny_line(&mut self, return_cost: u64) {
        if self.withdraws_once_in(4) {
            return self.withdrawal();
        }
        let show = self.some_show();
        let r = &mut self.random;
        let most_tens = 4 + return_cost;
        let (size, tens) = (r.between(1, 7), r.between(1, most_tens));
        let any = r.between(2, 10 * most_tens);
        let wait = r.pick(&[10 * tens, 10 * tens, any]);
        let deadline = self.session.clock() / 10 * 10 + wait;
        let compute = self.tiny_compute();
        let offer = Offer::new(show, size, deadline).with_compute(compute);
        match self.random.between(0, 9) {
            0 => self.job_at_some_cost(offer),
            1..=5 => self.job(offer),
            6 => self.job_at_the_edge(offer),
            7 => self.clock_near_a_start(),
            8 => self.clock_to(self.session.clock() + size),
            _ => self.account(show),
        }
    }

    /// Deadlines at the edge of what is granted, on any number of nodes.
    pub(super) fn tight(&mut self) {
        let nodes = self.random.between(1, 64);
        self.open_middling(nodes);
        for _ in 0..self.random.between(5, 25) {
            let show = self.some_show();
            let size = self.random.between(1, 400);
            let compute = self.some_compute();
            self.job_at_the_edge(Offer::new(show, size, LAST_TICK).with_compute(compute));
            if self.withdraws_once_in(3) {
                self.withdrawal();
            }
            match self.random.between(0, 5) {
                0 => self.clock_near_a_start(),
                1 => self.stray(),
                _ => {}
            }
        }
        self.clock_to(LAST_TICK);
        self.accounts();
    }

    /// Every figure at its limit, one beyond, or of any length.
    pub(super) fn near_limits(&mut self) {
        self.open_near_limits();
        if self.session.farm().is_none() {
            self.open_at_the_limits();
        }
        for _ in 0..self.random.between(10, 60) {
            self.line_near_limits();
        }
        if self.random.once_in(2) {
            self.clock_to(LAST_TICK);
        }
        self.accounts();
    }

    fn line_near_limits(&mut self) {
        if self.withdraws_once_in(5) {
            return self.withdrawal();
        }
        let show = self.some_show();
        let size = self.random.near(1, MOST_UNITS);
        let deadline = self.random.near(1, LAST_TICK);
        let compute = self.compute_near_limits();
        let offer = Offer::new(show, size, deadline).with_compute(compute);
        match self.random.between(0, 11) {
            0..=4 => self.job(offer),
            5 => self.job(offer.by(LAST_TICK)),
            6 => self.job_at_the_edge(offer),
            7 => self.job(offer.by(self.session.clock() + size.min(2))),
            8 => self.clock_near_a_start(),
            9 => self.clock_to(self.session.clock() + deadline / 16),
            10 => self.account(show),
            _ => self.stray(),
        }
    }

    /// A middling day in which nearly every other line is damaged.
    pub(super) fn damaged(&mut self) {
        if self.returning && self.random.once_in(2) {
            self.odd_return();
        }
        let nodes = self.random.between(1, 64);
        self.open_middling(nodes);
        for _ in 0..self.random.between(10, 60) {
            if self.random.once_in(2) {
                self.damaged_line();
            } else {
                self.middling_line(nodes);
            }
        }
        self.accounts();
        if self.random.once_in(3) {
            let line = self.long_line();
            self.raw(&line);
        }
    }

    /// Openings refused and repeated.
    pub(super) fn openings(&mut self) {
        for _ in 0..self.random.between(2, 12) {
            self.open_near_limits();
            if self.random.once_in(3) {
                self.stray();
            }
            if self.random.once_in(3) {
                self.wrong_opening();
            }
        }
        let nodes = self.random.between(1, 8);
        self.open_middling(nodes);
        for _ in 0..self.random.between(1, 10) {
            self.middling_line(nodes);
        }
        self.open_middling(nodes);
        if self.quoting {
            self.quote_something();
        }
        self.clock_near_a_start();
        self.accounts();
    }

    pub(super) fn middling(&mut self) {
        let nodes = self.random.between(1, 40);
        self.open_middling(nodes);
        for _ in 0..self.random.between(20, 150) {
            self.middling_line(nodes);
        }
        if self.random.once_in(8) {
            self.many_short_lines();
        }
        self.accounts();
    }

    fn middling_line(&mut self, nodes: u64) {
        if self.withdraws_once_in(6) {
            return self.withdrawal();
        }
        let show = self.some_show();
        let ticks_a_unit = 300 + self.farm_return();
        let r = &mut self.random;
        let size = r.of_any_length(600).max(1);
        let used = r.between(1, nodes);
        let wait = r.between(1, 1 + size * ticks_a_unit / used);
        let offer = Offer::new(show, size, self.session.clock() + wait);
        let backlog = self.session.last_start() - self.session.clock();
        match self.random.between(0, 19) {
            0..=5 => self.job_at_some_cost(offer),
            6..=11 => self.job_at_some_cost(offer.by(offer.deadline + backlog)),
            12 => {
                let compute = self.some_compute();
                self.job_at_the_edge(offer.with_compute(compute));
            }
            13..=15 => self.clock_near_a_start(),
            16 => self.clock_to(self.session.clock() + wait / 8),
            17 | 18 => self.account(show),
            _ => self.stray(),
        }
    }

    /// More than a program reads at once.
    fn many_short_lines(&mut self) {
        for _ in 0..self.random.between(5_000, 12_000) {
            if self.withdraws_once_in(20) {
                self.withdraw_wrong();
            }
            let show = self.some_show();
            match self.random.between(0, 9) {
                0 => self.clock_to(self.session.clock() + show),
                1 => self.stray(),
                _ => self.account(show),
            }
        }
    }
}
