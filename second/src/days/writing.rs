//! Writing lines. Each is answered at once, so that the farm can be looked at.

use super::openings::farm_line;
use super::Day;
use crate::share::Costs;
use crate::text;
use std::ops::Range;

impl Day {
    /// Writes bytes and a newline; they may be several lines.
    pub(super) fn raw(&mut self, bytes: &[u8]) {
        self.bytes.extend_from_slice(bytes);
        self.bytes.push(b'\n');
        for line in bytes.split(|&byte| byte == b'\n') {
            self.session.line(line);
        }
        self.session.answers().clear();
    }

    /// Writes a line as the day spells it, at times behind an odd one.
    fn spelled(&mut self, line: &[u8]) {
        let line = self.spelling.of(line);
        if let Some(odd) = self.spelling.odd_before(&line) {
            self.raw(&odd);
        }
        self.raw(&line);
    }

    pub(super) fn line(&mut self, kind: &[u8], numbers: &[u64]) {
        self.spelled(&text::line(kind, numbers));
    }

    pub(super) fn open(&mut self, nodes: u64, costs: Costs, allowances: &[u64]) {
        let unopened = self.session.farm().is_none();
        self.spelled(&farm_line(nodes, costs, allowances));
        if unopened && self.session.farm().is_some() {
            self.opening = Some(self.last_line());
        }
    }

    /// Where the line just written stands.
    fn last_line(&self) -> Range<usize> {
        let end = self.bytes.len() - 1;
        let newline = self.bytes[..end].iter().rposition(|&byte| byte == b'\n');
        newline.map_or(0, |place| place + 1)..end
    }

    pub(super) fn clock_to(&mut self, time: u64) {
        self.line(b"clock", &[time]);
    }

    /// A move to the start of a waiting job, or just before or behind it.
    pub(super) fn clock_near_a_start(&mut self) {
        let starts = self.session.starts();
        if starts.is_empty() {
            return self.clock_to(self.session.clock());
        }
        let soon = self.random.place(starts.len().min(9));
        let time = starts[soon] + self.random.between(0, 2);
        self.clock_to(time.saturating_sub(1));
    }

    pub(super) fn withdraw(&mut self, job: u64) {
        self.line(b"withdraw", &[job]);
    }

    pub(super) fn account(&mut self, show: u64) {
        let farm = self.session.farm();
        if let Some(account) = farm.and_then(|farm| farm.account(show).ok()) {
            self.asked.push((show, account.held));
        }
        self.line(b"account", &[show]);
    }

    pub(super) fn accounts(&mut self) {
        for show in 1..=self.session.show_count() {
            self.account(show);
        }
    }

    pub(super) fn some_show(&mut self) -> u64 {
        let shows = self.session.show_count().max(1);
        self.random.between(1, shows)
    }
}
