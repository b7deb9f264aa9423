//! Random numbers by seed.

/// xorshift64*.
pub struct Chance(u64);

/// Spreads neighbouring numbers far apart (the finish of splitmix64).
fn spread(n: u64) -> u64 {
    let n = n.wrapping_add(0x9E37_79B9_7F4A_7C15);
    let n = (n ^ (n >> 30)).wrapping_mul(0xBF58_476D_1CE4_E5B9);
    let n = (n ^ (n >> 27)).wrapping_mul(0x94D0_49BB_1331_11EB);
    n ^ (n >> 31)
}

/// One step of xorshift64*: the next state, and the number it gives.
pub fn xorshift(state: u64) -> (u64, u64) {
    let mut x = state;
    x ^= x >> 12;
    x ^= x << 25;
    x ^= x >> 27;
    (x, x.wrapping_mul(0x2545_F491_4F6C_DD1D))
}

impl Chance {
    /// A stream of its own for each index.
    pub fn new(seed: u64, index: u64) -> Self {
        Self(spread(spread(seed).wrapping_add(index)) | 1)
    }

    pub fn number(&mut self) -> u64 {
        let (state, number) = xorshift(self.0);
        self.0 = state;
        // The low bits are the weak ones.
        number.rotate_left(32)
    }

    /// Below `n`, which is above 0.
    pub fn below(&mut self, n: u64) -> u64 {
        ((u128::from(self.number()) * u128::from(n)) >> 64) as u64
    }

    /// From `a` to `b`, both included.
    pub fn range(&mut self, a: u64, b: u64) -> u64 {
        a + self.below(b - a + 1)
    }

    /// True once in `n` times.
    pub fn once_in(&mut self, n: u64) -> bool {
        self.below(n) == 0
    }

    pub fn coin(&mut self) -> bool {
        self.once_in(2)
    }

    pub fn bit(&mut self) -> u64 {
        self.below(2)
    }

    pub fn pick<T: Copy>(&mut self, from: &[T]) -> T {
        from[self.below(from.len() as u64) as usize]
    }

    /// A number near an end of a range: of 0, 2^63, 2^64 or of no range.
    pub fn extreme(&mut self) -> u64 {
        const HALF: u64 = 1 << 63;
        let little = self.below(4);
        match self.below(9) {
            0 => little,
            1 | 2 => HALF - 1 - little,
            3 => HALF + little,
            4 | 5 => u64::MAX - little,
            6 => HALF / 2 + little,
            7 => 1 << self.below(64),
            _ => self.number(),
        }
    }
}
