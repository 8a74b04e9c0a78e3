//! Random numbers that depend on the seed alone (splitmix64).

pub struct Random {
    state: u64,
}

impl Random {
    pub fn new(seed: u64) -> Self {
        Self { state: seed }
    }

    pub fn bits(&mut self) -> u64 {
        self.state = self.state.wrapping_add(0x9e37_79b9_7f4a_7c15);
        let mut z = self.state;
        z = (z ^ (z >> 30)).wrapping_mul(0xbf58_476d_1ce4_e5b9);
        z = (z ^ (z >> 27)).wrapping_mul(0x94d0_49bb_1331_11eb);
        z ^ (z >> 31)
    }

    /// A number from 0 up to, not including, `bound`.
    pub fn below(&mut self, bound: u64) -> u64 {
        ((u128::from(self.bits()) * u128::from(bound)) >> 64) as u64
    }

    /// A number from `least` to `greatest`, both included.
    pub fn between(&mut self, least: i64, greatest: i64) -> i64 {
        least + self.below((greatest - least) as u64 + 1) as i64
    }

    pub fn coin(&mut self) -> bool {
        self.below(2) == 0
    }

    pub fn pick<T: Copy>(&mut self, choices: &[T]) -> T {
        choices[self.below(choices.len() as u64) as usize]
    }

    /// One of the choices, each as often as its share of them all.
    pub fn share<T: Copy>(&mut self, shares: &[(T, u64)]) -> T {
        let mut left = self.below(shares.iter().map(|(_, share)| share).sum());
        for &(choice, share) in shares {
            if left < share {
                return choice;
            }
            left -= share;
        }
        unreachable!("less is left than all shares")
    }

    /// A flag byte; every one but 0 is true.
    pub fn flag(&mut self) -> u8 {
        let any = self.bits() as u8;
        self.pick(&[0, 1, 2, 255, any])
    }

    /// A number of at most `most` binary digits, each count of digits as likely as the others.
    pub fn of_digits_up_to(&mut self, most: u32) -> u64 {
        match self.below(u64::from(most) + 1) {
            0 => 0,
            digits => self.bits() >> (64 - digits),
        }
    }
}
