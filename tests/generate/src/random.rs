//! A small source of random numbers (SplitMix64): the same seed gives the same tables.

pub struct Random {
    state: u64,
}

impl Random {
    pub fn new(seed: u64) -> Random {
        Random { state: seed }
    }

    /// Any 64 bits.
    pub fn word(&mut self) -> u64 {
        self.state = self.state.wrapping_add(0x9E37_79B9_7F4A_7C15);
        let mut x = self.state;
        x = (x ^ (x >> 30)).wrapping_mul(0xBF58_476D_1CE4_E5B9);
        x = (x ^ (x >> 27)).wrapping_mul(0x94D0_49BB_1331_11EB);
        x ^ (x >> 31)
    }

    /// A number below `end`, which is not 0.
    pub fn below(&mut self, end: usize) -> usize {
        ((u128::from(self.word()) * end as u128) >> 64) as usize
    }

    /// A number from `low` to `high`, both included.
    pub fn range(&mut self, low: usize, high: usize) -> usize {
        low + self.below(high - low + 1)
    }

    /// True in `percent` of 100 cases.
    pub fn chance(&mut self, percent: usize) -> bool {
        self.below(100) < percent
    }

    pub fn pick<'a, T>(&mut self, of: &'a [T]) -> &'a T {
        &of[self.below(of.len())]
    }

    pub fn shuffle<T>(&mut self, items: &mut [T]) {
        for k in (1..items.len()).rev() {
            items.swap(k, self.below(k + 1));
        }
    }

    /// The bits of a finite binary64: zeros of both signs, subnormals, extremes, ordinary numbers.
    pub fn finite(&mut self) -> u64 {
        const SPECIAL: [f64; 16] = [
            0.0,
            -0.0,
            1.0,
            -1.0,
            0.5,
            2.0,
            -3.0,
            f64::MAX,
            f64::MIN,
            f64::MIN_POSITIVE,
            -f64::MIN_POSITIVE,
            5e-324,
            -5e-324,
            1e200,
            -1e-200,
            f64::EPSILON,
        ];
        match self.below(10) {
            0..=2 => self.pick(&SPECIAL).to_bits(),
            3 | 4 => (self.below(17) as f64 - 8.0).to_bits(),
            5 | 6 => ((self.word() >> 11) as f64 / (1u64 << 50) as f64 - 4.0).to_bits(),
            7 => (self.word() & 0x800F_FFFF_FFFF_FFFF) >> (self.below(2) * 40),
            _ => loop {
                let bits = self.word();
                if f64::from_bits(bits).is_finite() {
                    return bits;
                }
            },
        }
    }

    /// The bits of an infinity or a NaN.
    pub fn not_finite(&mut self) -> u64 {
        let sign = (self.word() & 1) << 63;
        let fraction = match self.below(4) {
            0 => 0,
            1 => 1 << 51,
            2 => 1,
            _ => self.word() & 0x000F_FFFF_FFFF_FFFF,
        };
        sign | 0x7FF0_0000_0000_0000 | fraction
    }
}
