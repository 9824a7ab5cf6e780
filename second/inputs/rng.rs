//! The fixed-seed generator (splitmix64): the same numbers for the same seed on every machine.

pub struct Rng(u64);

impl Rng {
    /// Each stream of a seed is a sequence of its own.
    pub fn new(seed: u64, stream: u64) -> Rng {
        let mut rng = Rng(seed);
        let start = rng.next();
        Rng(start ^ stream.wrapping_mul(0xD6E8_FEB8_6659_FD93))
    }

    /// A sequence of its own, for which nothing is taken from this one.
    pub fn aside(&self) -> Rng {
        Rng::new(self.0, 0)
    }

    pub fn next(&mut self) -> u64 {
        self.0 = self.0.wrapping_add(0x9E37_79B9_7F4A_7C15);
        let mut z = self.0;
        z = (z ^ (z >> 30)).wrapping_mul(0xBF58_476D_1CE4_E5B9);
        z = (z ^ (z >> 27)).wrapping_mul(0x94D0_49BB_1331_11EB);
        z ^ (z >> 31)
    }

    /// A number from 0 to `limit - 1`; 0 when the limit is 0.
    pub fn below(&mut self, limit: usize) -> usize {
        (self.next() % (limit.max(1) as u64)) as usize
    }

    pub fn between(&mut self, least: u32, most: u32) -> u32 {
        let span = u64::from(most) - u64::from(least) + 1;
        (u64::from(least) + self.next() % span) as u32
    }

    /// True so many times of sixteen.
    pub fn chance(&mut self, of_sixteen: usize) -> bool {
        self.below(16) < of_sixteen
    }

    pub fn pick<T: Copy>(&mut self, from: &[T]) -> T {
        from[self.below(from.len())]
    }

    pub fn shuffle<T>(&mut self, items: &mut [T]) {
        for i in (1..items.len()).rev() {
            items.swap(i, self.below(i + 1));
        }
    }
}
