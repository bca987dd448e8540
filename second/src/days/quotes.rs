//! Quotes.

use super::Day;
use crate::farm::Offer;

impl Day {
    /// True once in so many times on a day with quotes.
    pub(super) fn quotes_once_in(&mut self, times: u64) -> bool {
        self.quoting && self.random.once_in(times)
    }

    /// Often a producer shops: other deadlines are quoted first.
    pub(super) fn quotes(&mut self, offer: Offer) {
        for _ in 0..self.random.pick(&[0, 0, 0, 1, 2, 3]) {
            let deadline = self.deadline_beside(offer.deadline);
            self.line(b"quote", &offer.by(deadline).fields());
        }
        self.line(b"quote", &offer.fields());
    }

    pub(super) fn quote_something(&mut self) {
        let offer = self.offer_of(9);
        self.quotes(offer);
    }

    /// A tick away, or after half to twice the wait.
    fn deadline_beside(&mut self, deadline: u64) -> u64 {
        let clock = self.session.clock();
        let wait = deadline.saturating_sub(clock);
        let r = &mut self.random;
        match r.between(0, 3) {
            0 => deadline.saturating_sub(1),
            1 => deadline + 1,
            _ => clock + r.between(wait / 2, 2 * wait),
        }
    }

    /// Something that may change the answer to an offer already quoted.
    pub(super) fn move_on(&mut self) {
        match self.some_waiting() {
            Some(job) if self.withdraws_once_in(2) => self.withdraw(job),
            _ => self.clock_near_a_start(),
        }
    }

    /// The first word of a line that is an offer or a quote.
    pub(super) fn kind_of_offer(&mut self) -> &'static [u8] {
        if self.quotes_once_in(2) {
            b"quote"
        } else {
            b"job"
        }
    }
}
