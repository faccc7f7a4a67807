//! Holds the definitions of document 01 (crates/definitions) against the plain reference.
//!
//! The definitions compute. For each generated module this command writes a statement, "the definitions' answer on
//! these bytes is the reference's answer", whose proof is computation alone; the prover then says which of them
//! hold. The statements stand in a scratch repository beside a copy of the definitions, so nothing of it touches this
//! one.

mod scratch;
mod statement;

use std::collections::BTreeMap;
use std::process::ExitCode;

use files::{Generator, Size};
use reference::Answer;

/// Larger modules compute too, but at a cost that grows with the square of their bytes.
const LONGEST: usize = 600;

struct Asked {
    count: usize,
    seed: u64,
}

fn main() -> ExitCode {
    match asked(std::env::args().skip(1)).and_then(|asked| run(&asked)) {
        Ok(true) => ExitCode::SUCCESS,
        Ok(false) => ExitCode::FAILURE,
        Err(message) => {
            eprintln!("definitions: {message}");
            ExitCode::from(2)
        }
    }
}

fn asked(mut words: impl Iterator<Item = String>) -> Result<Asked, String> {
    let mut asked = Asked {
        count: 500,
        seed: 1,
    };
    while let Some(word) = words.next() {
        let value = words
            .next()
            .ok_or_else(|| format!("{word} wants a number"))?;
        let number = |text: &str| text.parse().map_err(|_| format!("{text} is no number"));
        match word.as_str() {
            "--count" => asked.count = number(&value)? as usize,
            "--seed" => asked.seed = number(&value)?,
            _ => {
                return Err(format!(
                    "usage: definitions [--count N] [--seed S]; {word} is neither"
                ))
            }
        }
    }
    Ok(asked)
}

/// Whether the definitions agree with the reference on all generated modules.
fn run(asked: &Asked) -> Result<bool, String> {
    let modules = modules(asked);
    let answers: Vec<Answer> = modules.iter().map(|m| reference::analyse(m)).collect();
    print_counts(&modules, &answers);
    let scratch = scratch::Scratch::new()?;
    scratch.write(&modules, &answers)?;
    eprintln!("computing the definitions' answers ..");
    let differing = scratch.check(modules.len())?;
    for &case in &differing {
        let kept = scratch.keep(case, &modules[case])?;
        println!("DIFFERENT: case {case}, {}", kept.display());
    }
    println!(
        "compared {}, equal {}, different {}",
        modules.len(),
        modules.len() - differing.len(),
        differing.len()
    );
    Ok(differing.is_empty())
}

fn modules(asked: &Asked) -> Vec<Vec<u8>> {
    let mut generator = Generator::sized(asked.seed, Size::Small);
    std::iter::repeat_with(|| generator.file())
        .filter(|file| file.len() <= LONGEST)
        .take(asked.count)
        .collect()
}

fn print_counts(modules: &[Vec<u8>], answers: &[Answer]) {
    let mut counts = BTreeMap::new();
    for answer in answers {
        let number = match answer {
            Answer::Report(_) => 0,
            Answer::Refused(refusal) => refusal.number,
        };
        *counts.entry(number).or_insert(0usize) += 1;
    }
    let bytes: usize = modules.iter().map(Vec::len).sum();
    println!("{} modules, {bytes} bytes in all", modules.len());
    for (number, count) in counts {
        match number {
            0 => println!("  accepted {count}"),
            n => println!("  refused with {n}: {count}"),
        }
    }
}
