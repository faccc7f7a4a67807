//! Times, one size after another, each on accepted files.

use std::hint::black_box;
use std::time::Instant;

use files::{Generator, Size};

use crate::form::form;

/// Long enough that the clock's own cost is nothing.
const NANOSECONDS: u128 = 200_000_000;

/// The smallest file that there is, a middling one and the largest ones, each accepted.
fn samples() -> Vec<(&'static str, Vec<Vec<u8>>)> {
    let accepted = |size, seed| {
        let mut generator = Generator::sized(seed, size);
        move || generator.accepted().encode()
    };
    let longest = |files: Vec<Vec<u8>>| {
        let most = files.iter().map(Vec::len).max().unwrap_or(0);
        files
            .into_iter()
            .filter(|f| f.len() * 10 >= most * 9)
            .collect()
    };
    vec![
        ("smallest", vec![files::ModuleFile::default().encode()]),
        (
            "small",
            std::iter::repeat_with(accepted(Size::Small, 1))
                .take(64)
                .collect(),
        ),
        (
            "middling",
            std::iter::repeat_with(accepted(Size::Middling, 2))
                .take(32)
                .collect(),
        ),
        (
            "largest",
            longest(
                std::iter::repeat_with(accepted(Size::Large, 3))
                    .take(64)
                    .collect(),
            ),
        ),
    ]
}

/// Nanoseconds for one run over each of the files, the best of some tries.
fn nanoseconds(files: &[Vec<u8>], run: impl Fn(&[u8])) -> f64 {
    let mut best = f64::INFINITY;
    let begun = Instant::now();
    while begun.elapsed().as_nanos() < NANOSECONDS {
        let one = Instant::now();
        files.iter().for_each(|file| run(file));
        best = best.min(one.elapsed().as_nanos() as f64);
    }
    best
}

pub fn print_form() {
    println!("form checks alone, best of many runs:");
    for (name, files) in samples() {
        let bytes: usize = files.iter().map(Vec::len).sum();
        let taken = nanoseconds(&files, |file| {
            black_box(form(black_box(file)));
        });
        println!(
            "  {name:9} {:6} files, {:8.0} bytes each: {:7.3} ns a byte, {:10.0} ns a file",
            files.len(),
            bytes as f64 / files.len() as f64,
            taken / bytes as f64,
            taken / files.len() as f64
        );
    }
}
