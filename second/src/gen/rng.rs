//! Splitmix64: a small generator with the same numbers on every machine.

pub struct Rng {
    state: u64,
}

impl Rng {
    /// The stream of a seed and a number within it, so that case i of a seed
    /// does not depend on how many cases are made.
    pub fn new(seed: u64, number: u64) -> Rng {
        let mut rng = Rng { state: seed };
        rng.state = rng.draw().wrapping_add(number);
        rng.state = rng.draw();
        rng
    }

    pub fn draw(&mut self) -> u64 {
        self.state = self.state.wrapping_add(0x9E37_79B9_7F4A_7C15);
        let mut z = self.state;
        z = (z ^ (z >> 30)).wrapping_mul(0xBF58_476D_1CE4_E5B9);
        z = (z ^ (z >> 27)).wrapping_mul(0x94D0_49BB_1331_11EB);
        z ^ (z >> 31)
    }

    /// A number from low to high, both included.
    pub fn range(&mut self, low: usize, high: usize) -> usize {
        assert!(low <= high);
        low + (self.draw() % (high - low + 1) as u64) as usize
    }

    /// True in so many of a hundred.
    pub fn percent(&mut self, hundredths: usize) -> bool {
        self.range(0, 99) < hundredths
    }

    pub fn pick<T: Copy>(&mut self, from: &[T]) -> T {
        from[self.range(0, from.len() - 1)]
    }

    /// Picks by weight.
    pub fn weighted<T: Copy>(&mut self, from: &[(usize, T)]) -> T {
        let sum: usize = from.iter().map(|&(weight, _)| weight).sum();
        let mut at = self.range(0, sum - 1);
        for &(weight, item) in from {
            if at < weight {
                return item;
            }
            at -= weight;
        }
        unreachable!()
    }

    /// Any number of 32 bits but 0.
    pub fn nonzero(&mut self) -> u32 {
        (self.draw() as u32).max(1)
    }
}
