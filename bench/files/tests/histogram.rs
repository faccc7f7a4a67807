//! What the reference answers to the generated files: every refusal number comes up, and often.

use std::collections::BTreeSet;

use files::{shapes, Generator, Sheet, Size};
use reference::{analyse, Answer};

/// How often each refusal number comes up in the first files of a seed; reports are counted at 0.
fn histogram(seed: u64, size: Size, files: usize) -> [usize; 16] {
    let mut counts = [0; 16];
    for file in Generator::sized(seed, size).take(files) {
        let number = match analyse(&file) {
            Answer::Report(_) => 0,
            Answer::Refused(refusal) => usize::from(refusal.number),
        };
        counts[number] += 1;
    }
    counts
}

/// At least this many of each of these numbers.
#[track_caller]
fn come_up(counts: &[usize; 16], numbers: &[usize], least: usize) {
    for &number in numbers {
        assert!(counts[number] >= least, "{number} is rare: {counts:?}");
    }
}

/// 1 is not a file's matter, and 13 is retired. A small file has no room for the report of 14.
#[test]
fn small_files() {
    let counts = histogram(1, Size::Small, 20_000);
    come_up(&counts, &[2, 3, 4, 5, 6, 7, 8, 9, 10, 11, 12, 15], 100);
    come_up(&counts, &[0], 4_000);
    assert_eq!(counts[13], 0);
}

#[test]
fn middling_files() {
    let counts = histogram(2, Size::Middling, 4_000);
    come_up(&counts, &[2, 3, 4, 5, 6, 7, 8, 9, 10, 11, 12, 14, 15], 15);
    come_up(&counts, &[0], 1_000);
}

#[test]
fn large_files() {
    let counts = histogram(3, Size::Large, 1_000);
    come_up(&counts, &[2, 3, 4, 5, 6, 7, 8, 9, 10, 11, 12, 14, 15], 2);
    come_up(&counts, &[0], 250);
}

/// What is made to be accepted is accepted, and no longer than its size says.
#[test]
fn accepted_files_are_accepted() {
    let sizes = [
        (Size::Small, 600, 5_000),
        (Size::Middling, 8_000, 1_000),
        (Size::Large, 65_536, 100),
    ];
    for (size, most, files) in sizes {
        let mut generator = Generator::sized(4, size);
        for _ in 0..files {
            let file = generator.accepted().encode();
            assert!(file.len() <= most);
            let answer = analyse(&file);
            assert!(matches!(answer, Answer::Report(_)), "{answer:?}");
        }
    }
}

/// Reports have the length that was asked for, and one byte more than the limit is 14.
#[test]
fn reports_of_a_length() {
    for make in [shapes::report_of, shapes::long_report_of] {
        for length in 65_520..=65_536 {
            let Answer::Report(report) = analyse(&make(length).encode()) else {
                panic!("refused at {length}");
            };
            assert_eq!(report.len(), length);
        }
        let answer = analyse(&make(65_537).encode());
        assert!(matches!(answer, Answer::Refused(refusal) if refusal.number == 14));
    }
}

/// Every kind of expression with every sub, and every kind of statement, is in some accepted file.
#[test]
fn every_record_comes_up() {
    let mut expressions = BTreeSet::new();
    let mut statements = BTreeSet::new();
    let mut generator = Generator::new(5);
    for _ in 0..5_000 {
        for sheet in generator.accepted().sheets {
            expressions.extend(sheet.expressions.iter().map(|e| (e.kind, e.sub)));
            statements.extend(sheet.statements.iter().map(|s| (s.kind, s.sub)));
        }
    }
    let has_subs = |kind| match kind {
        5 => 4,
        13 => 5,
        _ => 1,
    };
    let all = (0..19).flat_map(|kind| (0..has_subs(kind)).map(move |sub| (kind, sub)));
    assert!(expressions.into_iter().eq(all));
    assert!(statements
        .into_iter()
        .eq((0..12).map(|kind| (kind, 0)).chain([(11, 1)])));
}

/// Accepted files come up to the limits of nesting and of the parts, or near them.
#[test]
fn accepted_files_come_near_the_limits() {
    let (mut around, mut expressions, mut operands, mut statements, mut bytes) = (0, 0, 0, 0, 0);
    let mut generator = Generator::sized(8, Size::Large);
    for _ in 0..200 {
        let module = generator.accepted();
        bytes = bytes.max(module.encode().len());
        for sheet in &module.sheets {
            around = around.max(deepest(sheet));
            expressions = expressions.max(sheet.expressions.len());
            operands = operands.max(sheet.operands.len());
            statements = statements.max(sheet.statements.len());
        }
    }
    let most = (around, expressions, operands, statements, bytes);
    assert_eq!((around, operands), (32, 8_192), "{most:?}");
    assert!(expressions > 2_000, "{most:?}");
    assert!(statements > 1_000 && bytes > 64_000, "{most:?}");
}

/// The most statements around a statement.
fn deepest(sheet: &Sheet) -> usize {
    let mut open: Vec<u16> = Vec::new();
    let mut deepest = 0;
    for (place, statement) in (0..).zip(&sheet.statements) {
        open.retain(|&end| end > place);
        deepest = deepest.max(open.len());
        open.push(statement.end);
    }
    deepest
}

/// Refusal 11 comes with each of its causes, and refusals come at many places of many functions.
#[test]
fn refusals_vary() {
    let mut causes = [0; 4];
    let mut places = BTreeSet::new();
    for file in Generator::new(6).take(20_000) {
        if let Answer::Refused(refusal) = analyse(&file) {
            causes[usize::from(refusal.cause)] += 1;
            places.insert((refusal.number, refusal.function, refusal.place));
        }
    }
    assert!(causes.iter().all(|&count| count >= 10), "{causes:?}");
    assert!(places.len() >= 300, "{}", places.len());
}
