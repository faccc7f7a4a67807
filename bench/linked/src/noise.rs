//! Bytes that mean nothing, other ones each time.

use files::random::Random;

pub struct Noise {
    bytes: Vec<u8>,
    from: usize,
}

/// More than a slice to be filled has; a prime, so that slices begin at ever other places.
const LENGTH: usize = 131_101;

impl Noise {
    pub fn new() -> Self {
        let mut random = Random::new(1);
        Noise {
            bytes: (0..LENGTH).map(|_| random.below(256) as u8).collect(),
            from: 0,
        }
    }

    /// Fills a slice, going on where the last one ended.
    pub fn fill(&mut self, mut slice: &mut [u8]) {
        while !slice.is_empty() {
            let count = slice.len().min(LENGTH - self.from);
            let (filled, rest) = slice.split_at_mut(count);
            filled.copy_from_slice(&self.bytes[self.from..self.from + count]);
            self.from = (self.from + count) % LENGTH;
            slice = rest;
        }
    }
}
