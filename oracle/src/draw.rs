//! A small generator of numbers (splitmix64), so that a seed gives the same cases everywhere.

pub struct Draw(u64);

impl Draw {
    /// The draws of one case of a seed.
    pub fn new(seed: u64, index: u64) -> Self {
        let mut draw = Self(seed.wrapping_mul(0xd134_2543_de82_ef95).wrapping_add(index));
        draw.number();
        Self(draw.number() ^ index)
    }

    pub fn number(&mut self) -> u64 {
        self.0 = self.0.wrapping_add(0x9e37_79b9_7f4a_7c15);
        let mut z = self.0;
        z = (z ^ (z >> 30)).wrapping_mul(0xbf58_476d_1ce4_e5b9);
        z = (z ^ (z >> 27)).wrapping_mul(0x94d0_49bb_1331_11eb);
        z ^ (z >> 31)
    }

    pub fn below(&mut self, bound: u64) -> u64 {
        self.number() % bound
    }

    pub fn among(&mut self, low: u64, high: u64) -> u64 {
        low + self.below(high - low + 1)
    }

    pub fn one_in(&mut self, n: u64) -> bool {
        self.below(n) == 0
    }

    pub fn pick<T: Copy>(&mut self, items: &[T]) -> T {
        items[self.below(items.len() as u64) as usize]
    }

    /// A float from low to high.
    pub fn float(&mut self, low: f64, high: f64) -> f64 {
        let unit = (self.number() >> 11) as f64 / (1u64 << 53) as f64;
        (low + unit * (high - low)).clamp(low, high)
    }
}
