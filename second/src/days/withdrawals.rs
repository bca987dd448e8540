//! Withdrawals.

use super::{Day, LONGEST};
use crate::limits::LAST_TICK;

impl Day {
    /// True once in so many times on a day with withdrawals.
    pub(super) fn withdraws_once_in(&mut self, times: u64) -> bool {
        self.withdrawing && self.random.once_in(times)
    }

    pub(super) fn some_waiting(&mut self) -> Option<u64> {
        let numbers = self.session.numbers();
        (!numbers.is_empty()).then(|| self.random.pick(&numbers))
    }

    /// Mostly of a waiting job, and mostly an offer or two behind it.
    pub(super) fn withdrawal(&mut self) {
        match self.random.between(0, 9) {
            0..=3 => self.withdraw_waiting(),
            4..=6 => self.withdraw_needed(),
            7 => (0..self.random.between(2, 5)).for_each(|_| self.withdraw_waiting()),
            _ => self.withdraw_wrong(),
        }
        for _ in 0..self.random.pick(&[0, 1, 1, 2]) {
            self.small_job();
        }
    }

    /// Sometimes the job just gone is asked for once more. Where none waits one
    /// is offered instead.
    pub(super) fn withdraw_waiting(&mut self) {
        let Some(job) = self.some_waiting() else {
            return self.small_job();
        };
        self.withdraw(job);
        if self.random.once_in(4) {
            self.withdraw(job);
        }
    }

    /// A begun job, a gone one, the next one, or no job's number at all.
    pub(super) fn withdraw_wrong(&mut self) {
        let (numbers, used) = (self.session.numbers(), self.session.numbers_used());
        let over: Vec<u64> = (1..=used).filter(|job| !numbers.contains(job)).collect();
        let r = &mut self.random;
        let unknown = r.pick(&[0, used + 1, used + 2, LAST_TICK, LAST_TICK + 1, LONGEST]);
        let job = if over.is_empty() || r.once_in(3) {
            unknown
        } else {
            r.pick(&over)
        };
        self.withdraw(job);
    }
}
