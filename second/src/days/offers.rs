//! Offers: any, small ones, and such at the edge of what is granted.

use super::Day;
use crate::farm::{Farm, Offer};
use crate::limits::LAST_TICK;
use crate::quick::Quick;

impl Day {
    /// An offer with some compute cost or none.
    pub(super) fn job_at_some_cost(&mut self, offer: Offer) {
        let compute = self.some_compute();
        self.job(offer.with_compute(compute));
    }

    /// An offer; a few are quoted, and meanwhile the farm moves on or no offer
    /// follows at all.
    pub(super) fn job(&mut self, offer: Offer) {
        if self.quotes_once_in(8) {
            self.quotes(offer);
            if self.random.once_in(2) {
                return;
            }
            self.move_on();
        }
        self.offer(offer);
    }

    /// An offer for sure, on days with quotes often quoted just before.
    pub(super) fn offer(&mut self, offer: Offer) {
        if self.quotes_once_in(2) {
            self.quotes(offer);
        }
        self.line(b"job", &offer.fields());
    }

    pub(super) fn offer_of(&mut self, most_units: u64) -> Offer {
        let show = self.some_show();
        let size = self.random.between(1, most_units);
        let compute = if self.tiny {
            self.tiny_compute()
        } else {
            self.some_compute()
        };
        Offer::new(show, size, LAST_TICK).with_compute(compute)
    }

    /// Hardly ever the cause of a refusal by itself.
    pub(super) fn small_job(&mut self) {
        let show = self.some_show();
        let size = self.random.between(1, 3);
        let compute = self.tiny_compute();
        let offer = Offer::new(show, size, LAST_TICK).with_compute(compute);
        match self.random.between(0, 3) {
            0 => self.job_at_the_edge(offer),
            1 => self.job(offer.by(self.session.clock() + 20 * size)),
            _ => self.job(offer),
        }
    }

    /// By the least deadline granted, and often by the tick before it or at a
    /// compute cost just beside.
    pub(super) fn job_at_the_edge(&mut self, offer: Offer) {
        let farm = self.session.farm();
        let Some(offer) = farm.and_then(|farm| by_least(offer, farm)) else {
            return self.job(offer.by(LAST_TICK));
        };
        if self.random.once_in(2) {
            self.job(offer.by(offer.deadline - 1));
        }
        if self.mixed && self.random.once_in(4) {
            let compute = offer.compute.unwrap_or(self.farm_compute());
            let beside = self.random.pick(&[compute - 1, compute + 1, compute + 1]);
            self.job(offer.with_compute(beside));
        }
        let later = self.random.pick(&[0, 0, 0, 1, offer.size]);
        self.job(offer.by((offer.deadline + later).min(LAST_TICK)));
    }
}

/// The offer by a deadline that is granted while the tick before it is refused.
pub(super) fn by_least(offer: Offer, farm: &Farm<Quick>) -> Option<Offer> {
    let granted = |deadline| farm.clone().offer(offer.by(deadline)).is_ok();
    let (mut refused, mut least) = (farm.clock(), LAST_TICK);
    if !granted(least) {
        return None;
    }
    while refused + 1 < least {
        let middle = refused + (least - refused) / 2;
        if granted(middle) {
            least = middle;
        } else {
            refused = middle;
        }
    }
    Some(offer.by(least))
}

/// The offer by the very tick at which it finishes on few nodes: one, and for
/// each step about one more.
pub(super) fn by_finish(offer: Offer, farm: &Farm<Quick>, steps: u64) -> Option<Offer> {
    let mut finish = LAST_TICK + 1;
    for _ in 0..=steps {
        finish = farm.clone().offer(offer.by(finish - 1)).ok()?.finish;
    }
    Some(offer.by(finish))
}
