//! The proved library, linked into this process: against the plain reference of document 01, against the release, and timed.
//!
//! - `linked form --count N --seed S`: the form checks on N generated and damaged files;
//! - `linked analyse --count N --seed S`: the whole analyzer on them, and every byte that it leaves in the lent slices;
//! - `linked time`: how long the form checks take, in nanoseconds for each byte;
//! - `linked speed [--quick] [--shaders DIR]`: how long the analyzer and the release take on the same modules;
//! - `linked release --count|--loops N --seed S`: the analyzer against the release, on N comparable modules, or on N that
//!   are mostly loops;
//! - `linked stack`: how much stack a run takes;
//! - `linked samples DIR COUNT [SHADERS]`: writes accepted module files, so many of each kind and size;
//! - `linked one FILE TIMES`, `linked one-form FILE TIMES`: one file again and again, for a profiler.

mod analyzer;
mod corpus;
mod form;
mod likeness;
mod noise;
mod one;
mod speed;
mod stack;
mod time;

use std::collections::BTreeMap;
use std::path::Path;
use std::process::ExitCode;

use files::{Generator, Size};
use reference::Answer;

fn main() -> ExitCode {
    let words: Vec<String> = std::env::args().skip(1).collect();
    let words: Vec<&str> = words.iter().map(String::as_str).collect();
    match words[..] {
        [what @ ("form" | "analyse"), "--count", count, "--seed", seed] => {
            match (count.parse(), seed.parse()) {
                (Ok(count), Ok(seed)) if what == "form" => compare(count, seed, form_differs),
                (Ok(count), Ok(seed)) => {
                    let mut lent = analyzer::Lent::new();
                    compare(count, seed, |file, answer| {
                        lent.answer(file).as_ref() != Some(answer)
                    })
                }
                _ => usage(),
            }
        }
        ["time"] => {
            time::print_form();
            ExitCode::SUCCESS
        }
        ["speed"] => done(speed::print(None, false)),
        ["speed", "--quick"] => done(speed::print(None, true)),
        ["speed", "--shaders", folder] => done(speed::print(Some(Path::new(folder)), false)),
        ["speed", "--quick", "--shaders", folder] => {
            done(speed::print(Some(Path::new(folder)), true))
        }
        ["release", which @ ("--count" | "--loops"), count, "--seed", seed] => {
            match (count.parse(), seed.parse()) {
                (Ok(count), Ok(seed)) => match likeness::compare(which == "--loops", count, seed) {
                    Ok(false) => ExitCode::FAILURE,
                    result => done(result.map(|_| ())),
                },
                _ => usage(),
            }
        }
        ["stack"] => done(stack::print()),
        ["samples", folder, count, ref shaders @ ..] if shaders.len() <= 1 => match count.parse() {
            Ok(count) => {
                let shaders = shaders.first().map(Path::new);
                done(one::write_samples(Path::new(folder), count, shaders))
            }
            Err(_) => usage(),
        },
        [what @ ("one" | "one-form"), file, times] => match times.parse() {
            Ok(times) if what == "one" => done(one::analyse(Path::new(file), times)),
            Ok(times) => done(one::check_form(Path::new(file), times)),
            Err(_) => usage(),
        },
        _ => usage(),
    }
}

/// Says what went wrong, if anything did.
fn done(result: Result<(), String>) -> ExitCode {
    match result {
        Ok(()) => ExitCode::SUCCESS,
        Err(message) => {
            eprintln!("linked: {message}");
            ExitCode::from(2)
        }
    }
}

fn usage() -> ExitCode {
    eprintln!(
        "usage: linked form|analyse --count N --seed S
       linked time
       linked speed [--quick] [--shaders DIR]
       linked release --count|--loops N --seed S
       linked stack
       linked samples DIR COUNT [SHADERS]
       linked one|one-form FILE TIMES"
    );
    ExitCode::from(2)
}

/// Sizes, and how often each is made: a large file takes as long as some hundred small ones.
const SIZES: [(Size, usize); 3] = [(Size::Small, 1_000), (Size::Middling, 60), (Size::Large, 1)];

/// Compares on files of all sizes; `differs` holds the library's answer against the reference's.
fn compare(count: usize, seed: u64, mut differs: impl FnMut(&[u8], &Answer) -> bool) -> ExitCode {
    let mut counts = BTreeMap::new();
    let mut different = 0;
    let whole: usize = SIZES.iter().map(|(_, share)| share).sum();
    for (size, share) in SIZES {
        let files = (count * share).div_ceil(whole);
        let mut generator = Generator::sized(seed, size);
        for made in 0..files {
            if made % 1_000_000 == 0 && made > 0 {
                eprintln!("{size:?}: {made} of {files}");
            }
            let file = generator.file();
            let answer = reference::analyse(&file);
            *counts.entry(number(&answer)).or_insert(0usize) += 1;
            if differs(&file, &answer) {
                different += 1;
                report_difference(&file, &answer);
            }
        }
    }
    print_counts(&counts, different);
    if different == 0 {
        ExitCode::SUCCESS
    } else {
        ExitCode::FAILURE
    }
}

/// The refusal's number, or 0 for a report.
fn number(answer: &Answer) -> u8 {
    match answer {
        Answer::Report(_) => 0,
        Answer::Refused(refusal) => refusal.number,
    }
}

/// The form checks have to give the reference's refusal, if it is one of theirs, and nothing else.
fn form_differs(file: &[u8], answer: &Answer) -> bool {
    let expected = match answer {
        Answer::Refused(refusal) if form::is_of_form(refusal.number) => Some(*refusal),
        _ => None,
    };
    form::form(file) != expected
}

fn report_difference(file: &[u8], answer: &Answer) {
    eprintln!("DIFFERENT on a file of {} bytes:", file.len());
    match answer {
        Answer::Report(report) => eprintln!("  the reference reports {} bytes", report.len()),
        Answer::Refused(refusal) => eprintln!("  the reference refuses: {refusal:?}"),
    }
    if file.len() <= 200 {
        eprintln!("  {file:02x?}");
    }
}

fn print_counts(counts: &BTreeMap<u8, usize>, different: usize) {
    let compared: usize = counts.values().sum();
    for (number, count) in counts {
        match number {
            0 => println!("  reports: {count}"),
            n => println!("  refused with {n}: {count}"),
        }
    }
    println!(
        "compared {compared}, equal {}, different {different}",
        compared - different
    );
}
