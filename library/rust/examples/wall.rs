//! What a wall has to bind: `wall MODULE-FILE` prints for each function the globals that it uses, and the images and samplers
//! that it, or anything that it calls, samples together.

use std::process::ExitCode;

use fiuraccju::{Analyzer, FunctionReport};

fn main() -> ExitCode {
    let mut words = std::env::args_os().skip(1);
    let (Some(name), None) = (words.next(), words.next()) else {
        eprintln!("usage: wall MODULE-FILE");
        return ExitCode::from(2);
    };
    let module = match std::fs::read(&name) {
        Ok(module) => module,
        Err(error) => {
            eprintln!("wall: {} can't be read: {error}", name.to_string_lossy());
            return ExitCode::from(2);
        }
    };
    match Analyzer::new().analyse(&module) {
        Ok(report) => {
            report.functions().for_each(print);
            ExitCode::SUCCESS
        }
        Err(refusal) => {
            println!("{refusal}");
            ExitCode::FAILURE
        }
    }
}

fn print(function: FunctionReport) {
    println!("{}", function.index());
    for (global, uses) in function.uses().filter(|(_, uses)| !uses.is_empty()) {
        println!("  {global}: {uses}");
    }
    for pair in function.pairs() {
        println!(
            "  bind image {} with sampler {}",
            pair.image.0, pair.sampler.0
        );
    }
    for pair in function.mixed_pairs() {
        println!(
            "  its caller decides: image {} with sampler {}",
            pair.image, pair.sampler
        );
    }
}
