//! `wrapper --count N --seed S`: the library's Rust wrapper on N generated and damaged files. Its refusals are held against the
//! reference's value by value, and what its accessors say of a report against what the reference's own reader says.

use std::process::ExitCode;

use files::{Generator, Size};
use fiuraccju::{Analyzer, Cause, End, FunctionReport, Report};
use reference::report::{ExpressionRecord, MixedPair, Pair, Section};
use reference::{Answer, Refusal};

/// Sizes, and how often each is made: a large file takes as long as some hundred small ones.
const SIZES: [(Size, usize); 3] = [(Size::Small, 1_000), (Size::Middling, 60), (Size::Large, 1)];

fn main() -> ExitCode {
    let words: Vec<String> = std::env::args().skip(1).collect();
    let words: Vec<&str> = words.iter().map(String::as_str).collect();
    let ["--count", count, "--seed", seed] = words[..] else {
        return usage();
    };
    let (Ok(count), Ok(seed)) = (count.parse(), seed.parse()) else {
        return usage();
    };
    compare(count, seed)
}

fn usage() -> ExitCode {
    eprintln!("usage: wrapper --count N --seed S");
    ExitCode::from(2)
}

fn compare(count: usize, seed: u64) -> ExitCode {
    let mut analyzer = Analyzer::new();
    let [mut reports, mut refusals, mut different] = [0usize; 3];
    let whole: usize = SIZES.iter().map(|(_, share)| share).sum();
    for (size, share) in SIZES {
        let mut generator = Generator::sized(seed, size);
        for _ in 0..(count * share).div_ceil(whole) {
            let file = generator.file();
            let expected = reference::analyse(&file);
            match expected {
                Answer::Report(_) => reports += 1,
                Answer::Refused(_) => refusals += 1,
            }
            if !same(analyzer.analyse(&file), &expected) {
                different += 1;
                eprintln!("DIFFERENT on a file of {} bytes", file.len());
            }
        }
    }
    println!("reports {reports}, refusals {refusals}, different {different}");
    if different == 0 {
        ExitCode::SUCCESS
    } else {
        ExitCode::FAILURE
    }
}

fn same(answer: Result<Report<'_>, fiuraccju::Refusal>, expected: &Answer) -> bool {
    match (answer, expected) {
        (Ok(report), Answer::Report(bytes)) => {
            report.bytes() == bytes && reads_alike(report, bytes)
        }
        (Err(refusal), Answer::Refused(expected)) => told(refusal) == *expected,
        _ => false,
    }
}

/// A refusal of the wrapper's by document 01's five values.
fn told(refusal: fiuraccju::Refusal) -> Refusal {
    let (cause, value) = match refusal.cause {
        None => (0, 0),
        Some(Cause::Expression(expression)) => (1, expression.0),
        Some(Cause::Return) => (2, 0),
        Some(Cause::Discard) => (3, 0),
    };
    Refusal {
        number: refusal.kind.number(),
        function: refusal.function.0,
        place: refusal.place,
        cause,
        value,
    }
}

/// Whether the accessors say what the reference's reader says.
fn reads_alike(report: Report<'_>, bytes: &[u8]) -> bool {
    let Some(expected) = reference::report::Report::read(bytes) else {
        return false;
    };
    usize::from(report.globals()) == expected.globals()
        && report.functions().len() == expected.functions()
        && report
            .functions()
            .zip(expected.sections())
            .all(|(function, section)| section_alike(function, section))
}

fn section_alike(function: FunctionReport<'_>, section: &Section<'_>) -> bool {
    function.origin().map(|e| e.0) == section.origin()
        && function.requirements().bits() == section.requirements()
        && u8::from(function.may_kill()) == section.may_kill()
        && function
            .uses()
            .map(|(_, uses)| uses.bits())
            .eq(section.uses().iter().copied())
        && pairs(function) == section.pairs()
        && mixed_pairs(function) == section.mixed()
        && expressions(function) == section.expressions()
}

fn pairs(function: FunctionReport<'_>) -> Vec<Pair> {
    let pair = |pair: fiuraccju::Pair| Pair {
        image: pair.image.0,
        sampler: pair.sampler.0,
    };
    function.pairs().map(pair).collect()
}

fn mixed_pairs(function: FunctionReport<'_>) -> Vec<MixedPair> {
    let tagged = |end| match end {
        End::Global(global) => (0, global.0),
        End::Argument(argument) => (1, argument.0),
    };
    let mixed = |pair: fiuraccju::MixedPair| {
        let ((image_tag, image), (sampler_tag, sampler)) =
            (tagged(pair.image), tagged(pair.sampler));
        MixedPair {
            image_tag,
            sampler_tag,
            image,
            sampler,
        }
    };
    function.mixed_pairs().map(mixed).collect()
}

fn expressions(function: FunctionReport<'_>) -> Vec<ExpressionRecord> {
    let record = |expression: fiuraccju::ExpressionReport| ExpressionRecord {
        origin: expression.origin.map(|e| e.0),
        requirements: expression.requirements.bits(),
        references: expression.references,
        assignable: expression.assignable.map(|g| g.0),
    };
    function.expressions().map(record).collect()
}
