//! Numbers drawn from a seed (splitmix64), and the draws that captures are made of.

pub struct Rng {
    state: u64,
}

const STEP: u64 = 0x9E37_79B9_7F4A_7C15;

impl Rng {
    pub fn new(seed: u64) -> Rng {
        Rng { state: seed }
    }

    /// Any number.
    pub fn any(&mut self) -> u64 {
        self.state = self.state.wrapping_add(STEP);
        let mut mixed = self.state;
        mixed = (mixed ^ (mixed >> 30)).wrapping_mul(0xBF58_476D_1CE4_E5B9);
        mixed = (mixed ^ (mixed >> 27)).wrapping_mul(0x94D0_49BB_1331_11EB);
        mixed ^ (mixed >> 31)
    }

    pub fn byte(&mut self) -> u8 {
        self.any().to_le_bytes()[7]
    }

    /// A number below `end`, which is not 0.
    pub fn below(&mut self, end: u64) -> u64 {
        let product = u128::from(self.any()) * u128::from(end);
        (product >> 64) as u64
    }

    /// A number from `first` to `last`, both included.
    pub fn between(&mut self, first: u64, last: u64) -> u64 {
        match (last - first).checked_add(1) {
            Some(count) => first + self.below(count),
            None => self.any(),
        }
    }

    pub fn chance(&mut self, percent: u64) -> bool {
        self.below(100) < percent
    }

    pub fn pick<T: Copy>(&mut self, from: &[T]) -> T {
        from[self.below(from.len() as u64) as usize]
    }

    /// A number of 1 to `bits` bits, each length as likely: small and huge ones both come.
    pub fn wide(&mut self, bits: u64) -> u64 {
        let shift = 64 - self.between(1, bits);
        (self.any() | 1 << 63) >> shift
    }

    /// One of `edges` or, as often, a wide number, held to `first` .. `last`.
    pub fn edgy(&mut self, edges: &[u64], first: u64, last: u64) -> u64 {
        if self.chance(50) {
            self.pick(edges).clamp(first, last)
        } else {
            self.wide(64).clamp(first, last)
        }
    }
}
