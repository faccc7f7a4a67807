//! Files from the generator: the first ones of a fixed seed.

use files::{Generator, Size};

use super::Gathered;

/// How many of each size: most are small, and a few are as long as they come.
const SIZES: [(&str, Size, u64, usize); 3] = [
    ("small", Size::Small, 101, 41),
    ("middling", Size::Middling, 102, 10),
    ("large", Size::Large, 103, 4),
];

pub fn gather(list: &mut Gathered) {
    for (name, size, seed, count) in SIZES {
        let mut generator = Generator::sized(seed, size);
        for number in 0..count {
            let what = format!("file {number} of seed {seed}, {name}");
            list.bytes(format!("{name}-{number}"), what, generator.file());
        }
    }
    let mut accepted = Generator::sized(104, Size::Small);
    for number in 0..12 {
        let what = format!("accepted module {number} of seed 104, small");
        list.module(format!("accepted-{number}"), what, &accepted.accepted());
    }
}
