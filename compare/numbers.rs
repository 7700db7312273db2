//! A small generator of numbers: every run draws the same from the same seed.

pub struct Numbers(pub u64);

impl Numbers {
    /// From the one up to the other, with both.
    pub fn draw(&mut self, low: u64, high: u64) -> u64 {
        self.0 = self.0.wrapping_mul(6_364_136_223_846_793_005).wrapping_add(1_442_695_040_888_963_407);
        low + (self.0 >> 33) % (high - low + 1)
    }
}
