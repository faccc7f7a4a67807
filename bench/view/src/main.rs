//! The operator's view a second time, written from docs/VIEW.md, and held against the program.
//!
//! - `view text [expressions]`: the text for standard input;
//! - `view sample`: a report that has every word of the view, which the gate gives to the program;
//! - `view compare PROGRAM --count N --seed S`: the program's text against this one's on N inputs, with and without expressions.

mod inputs;
mod judge;
mod render;
mod sample;

use std::collections::BTreeMap;
use std::io::{self, Read, Write};
use std::process::{Command, ExitCode, Stdio};

use inputs::Source;

fn main() -> ExitCode {
    let words: Vec<String> = std::env::args().skip(1).collect();
    let words: Vec<&str> = words.iter().map(String::as_str).collect();
    let done = match words[..] {
        ["text"] => text(false),
        ["text", "expressions"] => text(true),
        ["sample"] => io::stdout().write_all(&sample::sample()).map(|()| true),
        ["compare", program, "--count", count, "--seed", seed] => {
            match (count.parse(), seed.parse()) {
                (Ok(count), Ok(seed)) => compare(program, count, seed),
                _ => return usage(),
            }
        }
        _ => return usage(),
    };
    match done {
        Ok(true) => ExitCode::SUCCESS,
        Ok(false) => ExitCode::FAILURE,
        Err(error) => {
            eprintln!("view: {error}");
            ExitCode::from(2)
        }
    }
}

fn usage() -> ExitCode {
    eprintln!(
        "usage: view text [expressions] | view sample | view compare PROGRAM --count N --seed S"
    );
    ExitCode::from(2)
}

fn text(expressions: bool) -> io::Result<bool> {
    let mut input = Vec::new();
    io::stdin().read_to_end(&mut input)?;
    print!("{}", render::text(&input, expressions));
    Ok(true)
}

/// Whether the program's text is this one's on all inputs, and every report of an accepted module is taken for one.
fn compare(program: &str, count: usize, seed: u64) -> io::Result<bool> {
    let mut inputs = inputs::Inputs::new(seed);
    let mut kinds: BTreeMap<String, usize> = BTreeMap::new();
    let mut different = 0;
    for number in 0..count {
        let (input, source) = inputs.input();
        *kinds.entry(kind(&input)).or_default() += 1;
        let expressions = number % 2 == 1;
        let expected = render::text(&input, expressions);
        let found = run(program, &input, expressions)?;
        let refused = source == Source::Module && !expected.starts_with("report");
        if refused || found != expected.as_bytes() {
            different += 1;
            show(&input, &expected, &found);
        }
    }
    for (kind, inputs) in &kinds {
        println!("  {kind}: {inputs}");
    }
    println!(
        "compared {count}, equal {}, different {different}",
        count - different
    );
    Ok(different == 0)
}

/// What an input is, for the counts.
fn kind(input: &[u8]) -> String {
    if input.starts_with(b"refused ") {
        return "refusals".into();
    }
    match render::fault(input) {
        None => "reports".into(),
        Some(fault) => format!("not a report, {}", fault.name()),
    }
}

/// What the program writes, on standard output and then on standard error, where there should be nothing.
fn run(program: &str, input: &[u8], expressions: bool) -> io::Result<Vec<u8>> {
    let mut child = Command::new(program)
        .args(expressions.then_some("expressions"))
        .stdin(Stdio::piped())
        .stdout(Stdio::piped())
        .stderr(Stdio::piped())
        .spawn()?;
    let mut stdin = child.stdin.take().expect("piped");
    // The program reads all its input before it writes, and stops reading where the input is too long to be a report.
    if let Err(error) = stdin.write_all(input) {
        if error.kind() != io::ErrorKind::BrokenPipe {
            return Err(error);
        }
    }
    drop(stdin);
    let output = child.wait_with_output()?;
    Ok([output.stdout, output.stderr].concat())
}

fn show(input: &[u8], expected: &str, found: &[u8]) {
    eprintln!("DIFFERENT on an input of {} bytes", input.len());
    if input.len() <= 200 {
        eprintln!("  {input:02x?}");
    }
    let found = String::from_utf8_lossy(found);
    let lines = expected.lines().zip(found.lines());
    match lines.clone().find(|(one, other)| one != other) {
        Some((one, other)) => eprintln!("  expected: {one}\n  found:    {other}"),
        None => eprintln!(
            "  {} and {} lines, alike as far as both go",
            expected.lines().count(),
            found.lines().count()
        ),
    }
}

#[cfg(test)]
mod tests {
    use super::{render, sample};
    use reference::Answer;
    use std::{fs, path::Path};

    fn kept(path: &str) -> Vec<u8> {
        let root = Path::new(env!("CARGO_MANIFEST_DIR")).join("../..");
        fs::read(root.join(path)).expect(path)
    }

    #[test]
    fn the_gate_expects_this_text() {
        assert_eq!(kept("crates/view/args"), b"expressions\n");
        let input = kept("crates/view/stdin");
        assert_eq!(input, sample::sample());
        let text = String::from_utf8(kept("crates/view/stdout")).unwrap();
        assert_eq!(text, render::text(&input, true));
        assert!(text.starts_with("report "));
    }

    #[test]
    fn the_example_is_the_view_of_its_module() {
        let Answer::Report(report) = reference::analyse(&kept("examples/wall/wall.module")) else {
            panic!("the example is refused");
        };
        let text = String::from_utf8(kept("examples/wall/wall.view")).unwrap();
        assert_eq!(text, render::text(&report, false));
    }
}
