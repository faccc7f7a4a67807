//! What the two renderers are run on: reports of accepted modules, reports made at their limits, damaged ones, refusals, and
//! bytes of any kind.

use files::random::Random;
use files::{Generator, Size};
use reference::Answer;

/// Where an input is from.
#[derive(Clone, Copy, Debug, PartialEq, Eq)]
pub enum Source {
    /// It is the report of an accepted module.
    Module,
    Other,
}

/// Inputs without end, from a seed.
pub struct Inputs {
    random: Random,
    small: Generator,
    middling: Generator,
    large: Generator,
}

impl Inputs {
    pub fn new(seed: u64) -> Self {
        Inputs {
            random: Random::new(seed),
            small: Generator::sized(seed, Size::Small),
            middling: Generator::sized(seed, Size::Middling),
            large: Generator::sized(seed, Size::Large),
        }
    }

    pub fn input(&mut self) -> (Vec<u8>, Source) {
        let bytes = match self.random.below(20) {
            0..=6 => return (self.report(), Source::Module),
            7..=9 => self.made(),
            10..=17 => self.damaged(),
            18 => self.refusal(),
            _ => self.anything(),
        };
        (bytes, Source::Other)
    }

    /// The reference's report on an accepted module.
    fn report(&mut self) -> Vec<u8> {
        loop {
            let file = match self.random.below(40) {
                0 => self.large.file(),
                1..=8 => self.middling.file(),
                _ => self.small.file(),
            };
            if let Answer::Report(report) = reference::analyse(&file) {
                return report;
            }
        }
    }

    /// A report by its layout alone, with counts and numbers at their limits, and now and then one past them.
    fn made(&mut self) -> Vec<u8> {
        let globals = self.limited(256);
        let functions = self.limited(64);
        let mut bytes = vec![0, 0, 0, 0, 1];
        put(&mut bytes, globals);
        put(&mut bytes, functions);
        for _ in 0..functions {
            self.made_section(&mut bytes, globals);
            if bytes.len() > 66_000 {
                break;
            }
        }
        with_length(bytes)
    }

    fn made_section(&mut self, bytes: &mut Vec<u8>, globals: usize) {
        let random = &mut self.random;
        let many = random.one_in(30);
        let expressions = if many {
            random.between(2_040, 2_049)
        } else {
            random.few(6)
        };
        let pairs = if many {
            random.between(250, 257)
        } else {
            random.few(4)
        };
        let mixed = if many {
            random.between(250, 257)
        } else {
            random.few(4)
        };
        let mut pair_list: Vec<[usize; 2]> = Vec::new();
        let mut mixed_list: Vec<[usize; 4]> = Vec::new();
        if globals > 0 {
            pair_list = (0..pairs)
                .map(|_| [random.below(globals), random.below(globals)])
                .collect();
        }
        for _ in 0..mixed {
            let tags = random.between(1, 3);
            let (image, sampler) = (tags & 1, tags >> 1);
            let mut number = |tag| match tag {
                0 => random.below(globals.max(1)),
                _ => random.below(64),
            };
            mixed_list.push([image, number(image), sampler, number(sampler)]);
        }
        pair_list.sort_unstable();
        pair_list.dedup();
        mixed_list.sort_unstable();
        mixed_list.dedup();
        if globals == 0 {
            mixed_list.retain(|entry| entry[0] == 1 && entry[2] == 1);
        }
        let origin = |random: &mut Random| random.pick(&[65_535, 0, 7, 2_047]);
        put(bytes, origin(random));
        bytes.extend([random.below(16) as u8, random.below(2) as u8]);
        for count in [expressions, pair_list.len(), mixed_list.len()] {
            put(bytes, count);
        }
        bytes.extend((0..globals).map(|_| random.below(16) as u8 * u8::from(random.one_in(3))));
        for [image, sampler] in pair_list {
            put(bytes, image);
            put(bytes, sampler);
        }
        for [image_tag, image, sampler_tag, sampler] in mixed_list {
            bytes.extend([image_tag as u8, sampler_tag as u8]);
            put(bytes, image);
            put(bytes, sampler);
        }
        for _ in 0..expressions {
            put(bytes, origin(random));
            bytes.push(random.below(16) as u8);
            let count = random.pick(&[0, 1, 12, u32::MAX]);
            bytes.extend(count.to_be_bytes());
            let global = if globals > 0 && random.one_in(2) {
                random.below(globals)
            } else {
                65_535
            };
            put(bytes, global);
        }
    }

    /// A count up to a limit, rarely one more, often small.
    fn limited(&mut self, most: usize) -> usize {
        match self.random.below(24) {
            0 => most + 1,
            1 => most,
            2..=4 => self.random.between(0, most),
            _ => self.random.few(6),
        }
    }

    /// A report with a few bytes changed, cut or added; its length field set right again more often than not.
    fn damaged(&mut self) -> Vec<u8> {
        let mut bytes = if self.random.one_in(2) {
            self.report()
        } else {
            self.made()
        };
        for _ in 0..self.random.between(1, 3) {
            self.damage(&mut bytes);
        }
        if self.random.one_in(5) {
            return bytes;
        }
        with_length(bytes)
    }

    fn damage(&mut self, bytes: &mut Vec<u8>) {
        let random = &mut self.random;
        let length = bytes.len();
        if length == 0 {
            return;
        }
        match random.below(8) {
            0 => bytes.truncate(random.below(length)),
            1 => bytes.extend((0..random.between(1, 12)).map(|_| random.byte())),
            2 => {
                bytes.remove(random.below(length));
            }
            3 => {
                let (one, other) = (random.below(length), random.below(length));
                bytes.swap(one, other);
            }
            4 => {
                let at = random.below(length);
                bytes[at] ^= 1 << random.below(8);
            }
            5 => {
                let at = random.below(length.min(40));
                bytes[at] = bytes[at].wrapping_add(1);
            }
            6 => {
                let at = random.below(length);
                bytes[at] = random.pick(&[0, 1, 2, 15, 16, 64, 255]);
            }
            _ => {
                // Two bytes that become a number: often a count, an origin or an end.
                let at = random.below(length);
                let number: u16 = random.pick(&[
                    0, 1, 63, 64, 255, 256, 257, 2_047, 2_048, 2_049, 65_534, 65_535,
                ]);
                for (place, byte) in bytes[at..].iter_mut().zip(number.to_be_bytes()) {
                    *place = byte;
                }
            }
        }
    }

    /// A line as `fiuraccju` writes it, or one that only begins like it.
    fn refusal(&mut self) -> Vec<u8> {
        let random = &mut self.random;
        let mut line = format!(
            "refused {}: some words; function {}, place {}",
            random.between(1, 15),
            random.below(64),
            random.below(65_536)
        )
        .into_bytes();
        match random.below(6) {
            0 => line.truncate(random.between(5, 12)),
            1 => line.extend((0..random.below(300)).map(|_| random.byte())),
            2 => line.extend(b"\nand more\n"),
            3 => {}
            _ => line.push(b'\n'),
        }
        line
    }

    /// Bytes of any kind and length, also one byte under and over the longest report.
    fn anything(&mut self) -> Vec<u8> {
        let random = &mut self.random;
        let length = match random.below(6) {
            0 => random.pick(&[65_535, 65_536, 65_537, 65_538]),
            1 => random.below(10),
            _ => random.below(80),
        };
        let bytes = (0..length).map(|_| random.byte()).collect();
        if random.one_in(3) {
            return with_length(bytes);
        }
        bytes
    }
}

fn put(bytes: &mut Vec<u8>, number: usize) {
    bytes.extend((number as u16).to_be_bytes());
}

/// With the length field that its length asks for, where there is room for one.
fn with_length(mut bytes: Vec<u8>) -> Vec<u8> {
    if let Some(length) = bytes.len().checked_sub(4) {
        bytes[..4].copy_from_slice(&(length as u32).to_be_bytes());
    }
    bytes
}
