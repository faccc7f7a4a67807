//! `compare [--count N] [--loops N] [--seed S] [--shaders DIR]`: the reference of document 01 against the released
//! crate, over modules from a seed and over real shaders.

mod arguments;

use arguments::Request;
use compare::{keep_naga_quiet, reference, Run};
use std::process::ExitCode;

fn main() -> ExitCode {
    let request = match arguments::parse(std::env::args().skip(1)) {
        Ok(request) => request,
        Err(message) => {
            eprintln!("compare: {message}\n{}", arguments::USAGE);
            return ExitCode::from(2);
        }
    };
    keep_naga_quiet();
    match compare(&request) {
        Ok(true) => ExitCode::SUCCESS,
        Ok(false) => ExitCode::FAILURE,
        Err(message) => {
            eprintln!("compare: {message}");
            ExitCode::from(2)
        }
    }
}

/// Runs all that is asked for; whether no difference was left unexplained.
fn compare(request: &Request) -> Result<bool, String> {
    let mut run = Run::new(&reference);
    if let Some(folder) = &request.shaders {
        run.take_shaders(folder)?;
    }
    run.take_generated(request.count, request.seed);
    run.take_loops(request.loops, request.seed);
    run.finish()
}
