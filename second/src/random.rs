//! A small seeded generator of random numbers (splitmix64).

#[derive(Clone, Debug)]
pub struct Random(u64);

impl Random {
    pub fn new(seed: u64) -> Self {
        Random(seed)
    }

    pub fn word(&mut self) -> u64 {
        self.0 = self.0.wrapping_add(0x9e37_79b9_7f4a_7c15);
        let mut word = self.0;
        word = (word ^ (word >> 30)).wrapping_mul(0xbf58_476d_1ce4_e5b9);
        word = (word ^ (word >> 27)).wrapping_mul(0x94d0_49bb_1331_11eb);
        word ^ (word >> 31)
    }

    /// A number from `least` to `greatest`, both included.
    pub fn between(&mut self, least: u64, greatest: u64) -> u64 {
        least + self.word() % (greatest - least + 1)
    }

    /// The same for places in a row of the given length.
    pub fn place(&mut self, length: usize) -> usize {
        self.between(0, length as u64 - 1) as usize
    }

    /// True once in so many times.
    pub fn once_in(&mut self, times: u64) -> bool {
        self.word().is_multiple_of(times)
    }

    pub fn pick<T: Copy>(&mut self, row: &[T]) -> T {
        row[self.place(row.len())]
    }

    /// A number at a limit, rarely beyond it, or anywhere between.
    pub fn near(&mut self, least: u64, greatest: u64) -> u64 {
        match self.between(0, 39) {
            0 => least.saturating_sub(1),
            1 => greatest + 1,
            2..=9 => least,
            10..=17 => greatest,
            18..=22 => least + 1,
            23..=27 => greatest - 1,
            28..=33 => self.between(least, greatest),
            _ => self.of_any_length(greatest).max(least),
        }
    }

    /// A number up to `greatest` whose length in bits is random too.
    pub fn of_any_length(&mut self, greatest: u64) -> u64 {
        let bits = self.between(0, u64::from(greatest.ilog2()) + 1);
        self.between(0, greatest.min((1 << bits) - 1))
    }
}
