//! Draws for the programs: the bits are those of [`files::random`], the draws from them the programs' own.

use files::random::Random as Bits;

/// A stream of draws that its seed decides.
#[derive(Clone, Debug)]
pub struct Random {
    bits: Bits,
}

impl Random {
    pub fn new(seed: u64) -> Self {
        Random {
            bits: Bits::new(seed),
        }
    }

    /// A number under `limit`, which is not zero. It is the remainder, which isn't how module files draw it: the seeds
    /// of the fixed list stand for the programs that are drawn so.
    pub fn below(&mut self, limit: usize) -> usize {
        (self.bits.bits() % limit as u64) as usize
    }

    /// A number from `low` to `high`, both included.
    pub fn between(&mut self, low: usize, high: usize) -> usize {
        low + self.below(high - low + 1)
    }

    /// True in `percent` of a hundred draws.
    pub fn chance(&mut self, percent: usize) -> bool {
        self.below(100) < percent
    }

    /// One of the choices, if there are any.
    pub fn pick<'a, T>(&mut self, choices: &'a [T]) -> Option<&'a T> {
        if choices.is_empty() {
            return None;
        }
        let place = self.below(choices.len());
        choices.get(place)
    }
}

#[cfg(test)]
mod tests {
    use super::*;

    #[test]
    fn a_seed_gives_one_stream() {
        let draws = |seed| {
            let mut random = Random::new(seed);
            [random.below(1000), random.below(1000), random.below(1000)]
        };
        assert_eq!(draws(7), draws(7));
        assert_ne!(draws(7), draws(8));
    }

    #[test]
    fn bounds_are_kept() {
        let mut random = Random::new(1);
        for _ in 0..1000 {
            assert!((3..=5).contains(&random.between(3, 5)));
            assert!(random.chance(100));
            assert!(!random.chance(0));
        }
        assert_eq!(random.pick::<u8>(&[]), None);
    }
}
