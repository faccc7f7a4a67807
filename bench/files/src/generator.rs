//! Files without end from a seed: accepted ones, ones that break a rule, and damaged ones.

use crate::random::Random;
use crate::valid::{self, Bounds, Slip};
use crate::{damage, shapes, ModuleFile};

/// How large the files are.
#[derive(Clone, Copy, Debug, PartialEq, Eq)]
pub enum Size {
    /// Up to some 600 bytes; files that need many pairs, functions or nested statements may reach 2,500.
    /// None has room for a report that passes its limit (refusal 14).
    Small,
    /// Up to some 8,000 bytes, damaged ones a little more.
    Middling,
    /// Up to the limit of 65,536 bytes, and past it where a file is too long on purpose.
    Large,
}

impl Size {
    fn bounds(self) -> Bounds {
        match self {
            Size::Small => Bounds {
                bytes: 600,
                globals: 6,
                functions: 4,
                arguments: 4,
                expressions: 16,
                operands: 40,
                statements: 14,
                listed: 3,
                around: 8,
            },
            Size::Middling => Bounds {
                bytes: 8_000,
                globals: 40,
                functions: 12,
                arguments: 12,
                expressions: 120,
                operands: 600,
                statements: 100,
                listed: 20,
                around: 32,
            },
            Size::Large => Bounds {
                bytes: 65_536,
                globals: 256,
                functions: 64,
                arguments: 64,
                expressions: 2_048,
                operands: 8_192,
                statements: 1_024,
                listed: 512,
                around: 32,
            },
        }
    }
}

/// Files from a seed; an iterator that never ends.
#[derive(Clone, Debug)]
pub struct Generator {
    random: Random,
    size: Size,
}

impl Generator {
    /// Small files.
    pub fn new(seed: u64) -> Self {
        Generator::sized(seed, Size::Small)
    }

    pub fn sized(seed: u64, size: Size) -> Self {
        Generator {
            random: Random::new(seed),
            size,
        }
    }

    /// The next file.
    pub fn file(&mut self) -> Vec<u8> {
        match self.random.below(10) {
            0..=1 => self.accepted().encode(),
            2..=4 => self.slipping().encode(),
            5 => self.shaped().encode(),
            6..=8 => self.damaged_records().encode(),
            _ => self.damaged_bytes(),
        }
    }

    /// A module that is accepted.
    pub fn accepted(&mut self) -> ModuleFile {
        valid::module(&mut self.random, &self.size.bounds(), None)
    }

    /// A module of right form that mostly breaks one rule.
    fn slipping(&mut self) -> ModuleFile {
        let slip = self.random.pick(&[
            Slip::Tracing,
            Slip::Base,
            Slip::Capability,
            Slip::Condition,
            Slip::Exit,
        ]);
        valid::module(&mut self.random, &self.size.bounds(), Some(slip))
    }

    /// A module at a limit or just past it, as far as the size allows.
    fn shaped(&mut self) -> ModuleFile {
        match self.size {
            Size::Small => self.small_shape(),
            Size::Middling => self.middling_shape(),
            Size::Large => self.large_shape(),
        }
    }

    fn small_shape(&mut self) -> ModuleFile {
        match self.random.below(4) {
            0 => shapes::deep(self.random.between(30, 34)),
            1 => shapes::part_of(0, self.random.between(62, 66)),
            _ => self.called(),
        }
    }

    fn middling_shape(&mut self) -> ModuleFile {
        match self.random.below(6) {
            0 => shapes::pairs(self.random.between(254, 259)),
            1 => shapes::mixed(self.random.between(254, 259)),
            2 => self.repeated(),
            3 => shapes::part_of(self.random.between(4, 5), self.random.between(511, 514)),
            4 => shapes::file_of(self.random.between(7_000, 8_000)),
            _ => self.small_shape(),
        }
    }

    fn large_shape(&mut self) -> ModuleFile {
        match self.random.below(6) {
            0 if self.random.one_in(2) => {
                shapes::long_report_of(self.random.between(65_530, 65_540))
            }
            0 => shapes::report_of(self.random.between(65_530, 65_540)),
            1 => shapes::file_of(self.random.between(65_530, 65_540)),
            2 => {
                let part = self.random.between(1, 3);
                let limit = shapes::PART_LIMITS[part];
                shapes::part_of(part, self.random.between(limit - 1, limit + 1))
            }
            _ => self.middling_shape(),
        }
    }

    /// Pairs that come through calls: about as many as there may be.
    fn called(&mut self) -> ModuleFile {
        let samplers = self.random.between(8, 18);
        let images = 256 / samplers + self.random.between(0, 1);
        let mixed = self.random.one_in(2);
        shapes::called(images, samplers, mixed)
    }

    /// A report of about the most bytes on a file of some kilobytes.
    fn repeated(&mut self) -> ModuleFile {
        let mut module = shapes::repeated(16, 16, self.random.between(44, 62));
        module.spaces.resize(self.random.between(16, 256), 10);
        module
    }

    /// A module that was accepted, with one or a few records damaged.
    fn damaged_records(&mut self) -> ModuleFile {
        let mut module = self.accepted();
        for _ in 0..=self.random.few(3) {
            damage::records(&mut module, &mut self.random);
        }
        module
    }

    /// Any file, with its bytes damaged once or a few times.
    fn damaged_bytes(&mut self) -> Vec<u8> {
        let mut file = self.accepted().encode();
        for _ in 0..=self.random.few(3) {
            damage::bytes(&mut file, &mut self.random);
        }
        file
    }
}

impl Iterator for Generator {
    type Item = Vec<u8>;

    fn next(&mut self) -> Option<Vec<u8>> {
        Some(self.file())
    }
}
