//! A small generator of pseudo-random numbers (splitmix64). The same seed always gives the same cases.

pub struct Random {
    state: u64,
}

impl Random {
    pub fn new(seed: u64) -> Random {
        Random { state: seed }
    }

    pub fn next(&mut self) -> u64 {
        self.state = self.state.wrapping_add(0x9e37_79b9_7f4a_7c15);
        let mut z = self.state;
        z = (z ^ (z >> 30)).wrapping_mul(0xbf58_476d_1ce4_e5b9);
        z = (z ^ (z >> 27)).wrapping_mul(0x94d0_49bb_1331_11eb);
        z ^ (z >> 31)
    }

    /// A number from 0 to `count` - 1.
    pub fn below(&mut self, count: usize) -> usize {
        (self.next() % count as u64) as usize
    }

    /// A number from `low` to `high`, both included.
    pub fn between(&mut self, low: i64, high: i64) -> i64 {
        let count = i128::from(high) - i128::from(low) + 1;
        (i128::from(low) + i128::from(self.next()) % count) as i64
    }

    /// True once in `count` times.
    pub fn once_in(&mut self, count: usize) -> bool {
        self.below(count) == 0
    }

    pub fn pick<T: Copy>(&mut self, list: &[T]) -> T {
        list[self.below(list.len())]
    }

    /// A number close to `centre`; small distances are the likely ones.
    pub fn near(&mut self, centre: i64) -> i64 {
        let reach = self.pick(&[0, 1, 1, 2, 50, 100, 300]);
        centre.saturating_add(self.between(-reach, reach))
    }

    /// A number that no careful caller would pass: the ends of the 64-bit and 32-bit range, and products that overflow.
    pub fn absurd(&mut self) -> i64 {
        let shift = self.below(64);
        let power = 1i64.wrapping_shl(shift as u32);
        let centre = self.pick(&[i64::MIN, i64::MAX, 0, power, power.wrapping_neg(), i64::MAX / 100, i64::MIN / 100]);
        match self.below(4) {
            0 => self.next() as i64,
            1 => centre,
            _ => self.near(centre),
        }
    }
}
