// Draws from a seed: Pcg64, and how many of its draws were bent.
pub struct Seeded {
    state: u128,
    increment: u128,
    bent: u64,
}

impl Seeded {
    const MULTIPLIER: u128 = 0x2360_ED05_1FC6_5DA4_4385_DF64_9FCC_F645;

    pub fn new(seed: u64, stream: u64) -> Seeded {
        let increment = u128::from(stream) << 1 | 1;
        let mut new = Seeded { state: u128::from(seed).wrapping_add(increment), increment, bent: 0 };
        new.step();
        new
    }

    fn step(&mut self) {
        self.state = self.state.wrapping_mul(Seeded::MULTIPLIER).wrapping_add(self.increment);
    }

    fn word(&mut self) -> u64 {
        self.step();
        ((self.state >> 64) as u64 ^ self.state as u64).rotate_right((self.state >> 122) as u32)
    }

    pub fn below(&mut self, bound: u64) -> u64 {
        if bound == 1 {
            return 0;
        }
        // 2^64 / bound: one share is the bound's own, and the rest of 2^64 is divided.
        let share = bound.wrapping_neg() / bound + 1;
        let mut word = 0;
        for _ in 0..16 {
            word = self.word();
            // An accepted word is below share * bound.
            if word / share < bound {
                return word / share;
            }
        }
        self.bent += 1;
        word % bound
    }

    pub fn bent(&self) -> u64 {
        self.bent
    }
}
