//! Numbers by seed (the splitmix64 step), the same on every machine.

pub struct Random {
    state: u64,
    /// Whether frames at a limit are many, and of many kinds.
    pub far: bool,
}

impl Random {
    pub fn new(seed: u64) -> Self {
        Random { state: seed, far: false }
    }

    pub fn next(&mut self) -> u64 {
        self.state = self.state.wrapping_add(0x9e37_79b9_7f4a_7c15);
        let mut z = self.state;
        z = (z ^ (z >> 30)).wrapping_mul(0xbf58_476d_1ce4_e5b9);
        z = (z ^ (z >> 27)).wrapping_mul(0x94d0_49bb_1331_11eb);
        z ^ (z >> 31)
    }

    pub fn word(&mut self) -> u32 {
        (self.next() >> 32) as u32
    }

    /// A number from 0 to below `end`.
    pub fn below(&mut self, end: usize) -> usize {
        (self.next() % end as u64) as usize
    }

    /// A number from `low` to `high`, both among them.
    pub fn within(&mut self, low: i32, high: i32) -> i32 {
        low.wrapping_add(self.below(high.abs_diff(low) as usize + 1) as i32)
    }

    /// True once in `many` times.
    pub fn once_in(&mut self, many: usize) -> bool {
        self.below(many) == 0
    }

    pub fn pick<T: Copy>(&mut self, from: &[T]) -> T {
        from[self.below(from.len())]
    }

    /// How seldom a frame is wild: as given, or often.
    pub fn wild(&mut self, seldom: &[usize]) -> usize {
        if self.far {
            return self.pick(&[2, 3, 6]);
        }
        self.pick(seldom)
    }

    /// A frame at a limit of the rules or of its type.
    pub fn limit(&mut self) -> i32 {
        const BILLION: i32 = 1_000_000_000;
        if self.far && !self.once_in(3) {
            return match self.below(5) {
                0 => i32::MAX - self.below(300) as i32,
                1 => (1 << self.below(31)) + self.within(-2, 2),
                2 => BILLION + self.within(-200, 200),
                3 => i32::MIN + self.below(300) as i32,
                _ => (self.word() >> 1) as i32,
            };
        }
        self.pick(&[i32::MIN, i32::MIN + 1, -2, -1, 0, 1, BILLION - 1, BILLION, BILLION + 1, i32::MAX - 1, i32::MAX])
    }
}
