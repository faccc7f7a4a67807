//! Runs the reference over generated files and prints how often each answer came up.
//!
//! `count SIZE FILES SEED`, with the size `small`, `middling` or `large`.

use std::process::ExitCode;
use std::time::Instant;

use files::{Generator, Size};
use reference::{analyse, Answer, NUMBERS};

fn main() -> ExitCode {
    let arguments: Vec<String> = std::env::args().skip(1).collect();
    let Some((size, files, seed)) = parse(&arguments) else {
        eprintln!("count small|middling|large FILES SEED");
        return ExitCode::FAILURE;
    };
    let started = Instant::now();
    let (mut bytes, mut longest) = (0, 0);
    let mut counts = [0u64; 16];
    for file in Generator::sized(seed, size).take(files) {
        bytes += file.len();
        longest = longest.max(file.len());
        let number = match analyse(&file) {
            Answer::Report(_) => 0,
            Answer::Refused(refusal) => usize::from(refusal.number),
        };
        counts[number] += 1;
    }
    let seconds = started.elapsed().as_secs_f64();
    println!("{files} files, {bytes} bytes, the longest {longest}, in {seconds:.1} s");
    println!("reports {}", counts[0]);
    for number in NUMBERS {
        println!("refusal {number}: {}", counts[usize::from(number)]);
    }
    ExitCode::SUCCESS
}

fn parse(arguments: &[String]) -> Option<(Size, usize, u64)> {
    let [size, files, seed] = arguments else {
        return None;
    };
    let size = match size.as_str() {
        "small" => Size::Small,
        "middling" => Size::Middling,
        "large" => Size::Large,
        _ => return None,
    };
    Some((size, files.parse().ok()?, seed.parse().ok()?))
}
