//! Lines that are refused; most of them can be read.

use super::{Day, LONGEST};
use crate::farm::Offer;
use crate::limits::{LAST_TICK, MOST_COMPUTE_COST, MOST_UNITS};
use crate::share::Costs;

impl Day {
    /// A line that is refused, or at least odd.
    pub(super) fn stray(&mut self) {
        let clock = self.session.clock();
        let wrong_show = self.wrong_show();
        let r = &mut self.random;
        let wrong_time = r.pick(&[clock.wrapping_sub(1).min(LAST_TICK + 1), LAST_TICK + 1]);
        if self.withdraws_once_in(8) {
            return self.withdraw_wrong();
        }
        match self.random.between(0, 11) {
            0..=4 => self.wrong_job(),
            5 => self.job_too_large(),
            6 => self.clock_to(wrong_time),
            7 => self.clock_to(clock),
            8 => self.line(b"account", &[wrong_show]),
            9 => self.open(1, Costs::new(1, 1, 0, 0, 0), &[1]),
            10 => self.raw(b""),
            _ => self.damaged_line(),
        }
    }

    /// One figure wrong or several, so that the order of the questions shows.
    fn wrong_job(&mut self) {
        let mut offer = Offer::new(self.some_show(), 1, LAST_TICK);
        offer.compute = self.some_compute();
        let [wrong_show, wrong_size, wrong_compute, wrong_deadline] = self.which_wrong();
        if wrong_show {
            offer.show = self.wrong_show();
        }
        if wrong_size {
            offer.size = self.random.pick(&[0, MOST_UNITS + 1, LONGEST]);
        }
        if wrong_compute && self.mixed {
            offer.compute = Some(self.wrong_compute());
        }
        if wrong_deadline {
            offer.deadline = self.random.pick(&[0, self.session.clock(), LAST_TICK + 1]);
        }
        self.job(offer);
    }

    /// Of four figures one, two, three or all.
    fn which_wrong(&mut self) -> [bool; 4] {
        let wrong = self.random.between(1, 15);
        [1, 2, 4, 8].map(|figure| wrong & figure != 0)
    }

    fn wrong_show(&mut self) -> u64 {
        let shows = self.session.show_count();
        self.random.pick(&[0, shows + 1, 33, LONGEST])
    }

    pub(super) fn wrong_compute(&mut self) -> u64 {
        self.random.pick(&[0, MOST_COMPUTE_COST + 1, LONGEST])
    }

    fn job_too_large(&mut self) {
        let offer = Offer::new(self.some_show(), MOST_UNITS, self.session.clock() + 1);
        self.job_at_some_cost(offer);
    }
}
