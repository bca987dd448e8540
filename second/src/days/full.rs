//! Days that fill the queue or the timetable.

use super::Day;
use crate::farm::Offer;
use crate::limits::{LAST_TICK, MOST_WAITING};
use crate::share::Costs;

impl Day {
    /// 128 jobs wait and more are offered; then some begin or are withdrawn and
    /// more come.
    pub(super) fn full_queue(&mut self) {
        let nodes = self.random.between(1, 64);
        self.open_middling(nodes);
        let horizon = self.random.pick(&[1_000_000, 10_000_000, LAST_TICK / 2]);
        for _ in 0..self.random.between(1, 3) {
            let needed = self.needed_in_front();
            self.fill_queue(horizon);
            if self.withdrawing {
                self.room_for_more(horizon, needed);
            }
            for _ in 0..self.random.between(1, 12) {
                self.stray();
                self.clock_near_a_start();
            }
        }
        self.clock_to(self.session.last_start());
        self.accounts();
    }

    /// Offers until a few meet a full queue. A mixed day refuses more, so not every
    /// offer makes the queue longer.
    fn fill_queue(&mut self, horizon: u64) {
        let mut beyond = 0;
        for _ in 0..2 * MOST_WAITING {
            let show = self.some_show();
            let r = &mut self.random;
            let wait = r.between(horizon / 2, horizon) / 1_000 * 1_000;
            let size = r.of_any_length(200).max(1);
            let (deadline, compute) = (self.session.clock() + wait, self.some_compute());
            self.offer(Offer::new(show, size, deadline).with_compute(compute));
            beyond += u64::from(self.session.waiting() == MOST_WAITING);
            if beyond == 10 {
                break;
            }
        }
    }

    /// On half of the days with withdrawals, before the queue fills up.
    fn needed_in_front(&mut self) -> Option<u64> {
        let wanted = self.withdraws_once_in(2);
        wanted.then(|| self.offer_needed()).flatten()
    }

    /// Withdrawals from a full queue, and offers that fill it again; last of all
    /// a job is withdrawn that others need, and offers are in vain.
    fn room_for_more(&mut self, horizon: u64, needed: Option<u64>) {
        for _ in 0..self.random.between(3, 20) {
            self.withdrawal();
            for _ in 0..self.random.between(0, 3) {
                let show = self.some_show();
                let r = &mut self.random;
                let (size, wait) = (r.between(1, 50), r.between(horizon / 2, horizon));
                self.job_at_some_cost(Offer::new(show, size, self.session.clock() + wait));
            }
        }
        if let Some(job) = needed {
            self.withdraw(job);
            (0..3).for_each(|_| self.small_job());
        }
    }

    /// Every job takes one unit on each node, so that the lines a move would
    /// issue can be counted beforehand: about 1,024. A withdrawal takes some of
    /// them away.
    pub(super) fn full_timetable(&mut self) {
        let return_cost = self.some_return(10_000);
        let r = &mut self.random;
        let nodes = r.pick(&[64, 63, 50, 32, 16, 9, 8]);
        let costs = Costs {
            send: r.between(1, 3),
            compute: 10_000,
            link_setup: r.between(0, 3),
            node_setup: r.between(0, 50),
            return_cost,
        };
        let lines = r.pick(&[1_023, 1_024, 1_024, 1_025, 1_025, 1_100]);
        self.open(nodes, costs, &[0, LAST_TICK]);
        let lines = lines.min(nodes * MOST_WAITING as u64);
        let deadline = self.offer_lines(lines, nodes, costs);
        self.moves_up_to(deadline);
        if self.withdrawing {
            self.withdraw_waiting();
            self.clock_to(deadline);
        }
        self.accounts();
    }

    /// Offers of so many lines in all, each by the tick at which it finishes behind
    /// the one before; answers the last deadline.
    fn offer_lines(&mut self, lines: u64, nodes: u64, costs: Costs) -> u64 {
        let mut deadline = 0;
        let mut left = lines;
        while left > 0 {
            let size = left.min(nodes);
            left -= size;
            let own = self.random.between(5_000, 20_000);
            let compute = self.in_half(own);
            let own_costs = costs.with_compute(compute.unwrap_or(costs.compute));
            deadline = own_costs.finish(deadline + size * costs.send_ticks(1), 1);
            let show = self.some_show();
            self.offer(Offer::new(show, size, deadline).with_compute(compute));
        }
        deadline
    }

    /// Moves to the last deadline, which may issue too many lines, and between them
    /// such as leave the last few jobs waiting.
    fn moves_up_to(&mut self, deadline: u64) {
        let starts = self.session.starts();
        for back in (1..=self.random.place(4) + 1).rev() {
            self.clock_to(deadline);
            let place = starts.len().saturating_sub(back);
            let start = starts.get(place).copied().unwrap_or(1);
            self.clock_to(start.saturating_sub(1));
            if self.withdraws_once_in(2) {
                self.withdrawal();
            }
            self.stray();
        }
        self.clock_to(deadline);
    }
}
