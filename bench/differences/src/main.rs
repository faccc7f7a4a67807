//! `differences`: runs the reference and the release on every input of `docs/DIFFERENCES.md` and checks that
//! they differ as it says. `differences write` writes the module files first.

use differences::{check, write};
use std::process::ExitCode;

fn main() -> ExitCode {
    let words: Vec<String> = std::env::args().skip(1).collect();
    let rows = match words.iter().map(String::as_str).collect::<Vec<_>>()[..] {
        [] => check(),
        ["write"] => write().and_then(|()| check()),
        _ => Err("usage: differences [write]".to_string()),
    };
    match rows {
        Ok(rows) => {
            println!("{}", rows.join("\n"));
            ExitCode::SUCCESS
        }
        Err(message) => {
            eprintln!("differences: {message}");
            ExitCode::FAILURE
        }
    }
}
