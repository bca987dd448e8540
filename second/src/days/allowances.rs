//! Allowances about what the shows hold.

use super::Day;
use crate::limits::LAST_TICK;
use crate::text::{line, read_line};

/// The numbers of a `farm` line before its allowances.
const BEFORE_ALLOWANCES: usize = 6;

impl Day {
    /// Writes the allowances anew. They decide nothing but the charged ticks, so
    /// this can wait until it is known what the shows held.
    pub(super) fn write_allowances(&mut self) {
        let Some(place) = self.opening.take() else {
            return;
        };
        let mut numbers = Vec::new();
        read_line(&self.bytes[place.clone()], &mut numbers);
        for (show, allowance) in (1..).zip(&mut numbers[BEFORE_ALLOWANCES..]) {
            *allowance = self.about_held(show).unwrap_or(*allowance);
        }
        let opening = self.spelling.of(&line(b"farm", &numbers));
        self.bytes.splice(place, opening);
    }

    /// For half of the shows about what one of their accounts showed: an allowance
    /// used up to the tick, or nearly so.
    fn about_held(&mut self, show: u64) -> Option<u64> {
        let asked = self.asked.iter().filter(|(asked, _)| *asked == show);
        let held = asked.map(|&(_, held)| held).filter(|&held| held > 0);
        let held: Vec<u64> = held.collect();
        let r = &mut self.random;
        if held.is_empty() || r.once_in(2) {
            return None;
        }
        let held = r.pick(&held);
        let about = r.between(held - held / 8, held + held / 8);
        let allowance = r.pick(&[held, held - 1, held + 1, about]);
        Some(allowance.min(LAST_TICK))
    }
}
