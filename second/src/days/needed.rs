//! Jobs that others need: without one of them an old job fails in the next walk.

use super::offers::{by_finish, by_least};
use super::Day;
use crate::farm::{Farm, Offer};
use crate::limits::LAST_TICK;
use crate::quick::Quick;

/// How many waiting jobs are tried for one that the others need.
const TRIED_WAITING: usize = 4;

/// How often three offers are tried.
const TRIED_OFFERS: usize = 200;

/// More waiting jobs make a try too slow.
const FEW_WAITING: usize = 12;

impl Day {
    /// A withdrawal after which the old jobs can no longer be walked, if one is
    /// found: of a job that waits already, or of one offered for that.
    pub(super) fn withdraw_needed(&mut self) {
        for _ in 0..TRIED_WAITING {
            let waiting = self.some_waiting().zip(self.session.farm());
            if let Some((job, _)) = waiting.filter(|(job, farm)| is_needed(farm, *job)) {
                return self.withdraw(job);
            }
        }
        match self.offer_needed() {
            Some(job) => self.withdraw(job),
            None => self.withdraw_waiting(),
        }
    }

    /// Offers a job that others need, with these, and answers its number; none
    /// where nothing of the kind is found.
    pub(super) fn offer_needed(&mut self) -> Option<u64> {
        if self.session.waiting() > FEW_WAITING {
            return None;
        }
        let offers = (0..TRIED_OFFERS).find_map(|_| self.offers_with_a_needed_one())?;
        for offer in offers {
            self.offer(offer);
        }
        Some(self.session.numbers_used() - 2)
    }

    /// Three offers of which the second needs more nodes behind the first than
    /// without it and so ends sooner on them, which the third needs.
    fn offers_with_a_needed_one(&mut self) -> Option<[Offer; 3]> {
        let most = if self.tiny { [1, 6, 9] } else { [5, 100, 300] };
        let tried = most.map(|units| self.offer_of(units));
        let steps = self.random.between(0, 2);
        let farm = self.session.farm()?;
        let second = by_finish(tried[1], farm, steps)?;
        let nodes = farm.clone().offer(second).ok()?.nodes;
        let first = by_finish(tried[0], farm, 0)?;
        let mut next = farm.clone();
        let needed = next.offer(first).ok()?.job;
        if next.offer(second).ok()?.nodes == nodes {
            return None;
        }
        let third = by_least(tried[2], &next)?;
        next.offer(third).ok()?;
        is_needed(&next, needed).then_some([first, second, third])
    }
}

/// Whether another waiting job fails in a walk without this one. One unit by the
/// last tick comes behind all of them, and fits there unless time is nearly over.
fn is_needed(farm: &Farm<Quick>, job: u64) -> bool {
    let mut farm = farm.clone();
    farm.withdraw(job).is_ok() && farm.offer(Offer::new(1, 1, LAST_TICK)).is_err()
}
