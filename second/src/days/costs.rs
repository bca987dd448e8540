//! Compute costs of offers, and return costs of farms.

use super::Day;
use crate::limits::{MOST_COMPUTE_COST, MOST_RETURN_COST};

impl Day {
    /// Half of the offers of a mixed day carry a compute cost.
    pub(super) fn in_half(&mut self, compute: u64) -> Option<u64> {
        (self.mixed && self.random.once_in(2)).then_some(compute)
    }

    /// Mostly one that a middling job may bear.
    pub(super) fn some_compute(&mut self) -> Option<u64> {
        let farm = self.farm_compute();
        let wrong = self.wrong_compute();
        let r = &mut self.random;
        let compute = match r.between(0, 19) {
            0..=4 => r.between(1, 4),
            5..=7 => farm,
            8 => farm - 1,
            9 => farm + 1,
            10..=12 => r.between(farm - farm / 8, farm + farm / 8),
            13..=16 => r.between(1, 2 * farm),
            17 => r.of_any_length(MOST_COMPUTE_COST),
            18 => r.pick(&[1, MOST_COMPUTE_COST, MOST_COMPUTE_COST - 1]),
            _ => wrong,
        };
        self.in_half(compute)
    }

    /// So small that the exhaustive walk can wait for the job's end.
    pub(super) fn tiny_compute(&mut self) -> Option<u64> {
        let wrong = self.wrong_compute();
        let r = &mut self.random;
        let compute = match r.between(0, 11) {
            0 => wrong,
            1 | 2 => 1,
            3 => r.between(7, 12),
            _ => r.between(1, 6),
        };
        self.in_half(compute)
    }

    pub(super) fn compute_near_limits(&mut self) -> Option<u64> {
        let compute = self.random.near(1, MOST_COMPUTE_COST);
        self.in_half(compute)
    }

    /// The farm's p; any before there is a farm.
    pub(super) fn farm_compute(&self) -> u64 {
        self.session.farm().map_or(9, |farm| farm.costs().compute)
    }

    /// r is 0 on the other days.
    pub(super) fn if_returning(&self, return_cost: u64) -> u64 {
        if self.returning {
            return_cost
        } else {
            0
        }
    }

    /// Mostly one that can be compared with the farm's p.
    pub(super) fn some_return(&mut self, compute: u64) -> u64 {
        let r = &mut self.random;
        let return_cost = match r.between(0, 9) {
            0..=3 => r.between(1, 40),
            4..=6 => r.between(1, 2 * compute),
            7 => compute,
            8 => r.of_any_length(MOST_RETURN_COST).max(1),
            _ => r.pick(&[1, MOST_RETURN_COST, MOST_RETURN_COST - 1]),
        };
        self.if_returning(return_cost.min(MOST_RETURN_COST))
    }

    /// So small that the exhaustive walk can wait for the job's end.
    pub(super) fn tiny_return(&mut self) -> u64 {
        let r = &mut self.random;
        let return_cost = match r.between(0, 15) {
            0 => r.between(13, 30),
            1 | 2 => r.between(5, 12),
            _ => r.between(1, 4),
        };
        self.if_returning(return_cost)
    }

    /// The farm's r, 0 before there is a farm.
    pub(super) fn farm_return(&self) -> u64 {
        let farm = self.session.farm();
        farm.map_or(0, |farm| farm.costs().return_cost)
    }
}
