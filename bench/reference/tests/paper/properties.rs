//! What holds in every accepted module, worked out from the module itself and not from the rules.

use std::collections::BTreeSet;

use files::{Generator, ModuleFile, Sheet, Size, ABSENT};
use reference::report::{Report, Section};
use reference::{analyse, Answer};

/// One end of a sampling: its tag (0 global, 1 argument) and number.
type End = (u8, u16);

/// Accepted modules of two sizes, each with its report's bytes.
fn accepted() -> impl Iterator<Item = (ModuleFile, Vec<u8>)> {
    [(Size::Small, 3_000), (Size::Middling, 300)]
        .into_iter()
        .flat_map(|(size, count)| {
            let mut generator = Generator::sized(7, size);
            (0..count).map(move |_| generator.accepted())
        })
        .map(|module| match analyse(&module.encode()) {
            Answer::Report(bytes) => (module, bytes),
            Answer::Refused(refusal) => panic!("{refusal:?}"),
        })
}

/// "The sum of a function's reference counts equals its present operands in expressions and statements plus its
/// initialisers."
#[test]
fn sum_of_references() {
    for (module, bytes) in accepted() {
        let report = Report::read(&bytes).unwrap();
        for (sheet, section) in module.sheets.iter().zip(report.sections()) {
            let counted: u32 = section.expressions().iter().map(|e| e.references).sum();
            let expressions = sheet.expressions.iter().map(|e| (e.first, e.count));
            let statements = sheet.statements.iter().map(|s| (s.first, s.count));
            let present: usize = expressions
                .chain(statements)
                .map(|part| pool_part(sheet, part))
                .map(|part| part.iter().filter(|&&operand| operand != ABSENT).count())
                .sum();
            assert_eq!(counted as usize, present + sheet.initialisers.len());
        }
    }
}

fn pool_part(sheet: &Sheet, (first, count): (u16, u16)) -> &[u16] {
    if count == 0 {
        return &[];
    }
    &sheet.operands[usize::from(first)..][..usize::from(count)]
}

/// A function's pairs are those that some chain of calls traces back to, and no others; both lists ascend. Every
/// chain is followed down from its function, ends being replaced on the way.
#[test]
fn pairs_are_those_of_the_chains() {
    let mut longest = 0;
    for (module, bytes) in accepted().filter(|(module, _)| call_depth_is_small(module)) {
        let report = Report::read(&bytes).unwrap();
        for (function, section) in report.sections().iter().enumerate() {
            let mut expected = BTreeSet::new();
            follow(&module, function, &|end| end, &mut expected);
            let found = listed(section);
            longest = longest.max(found.len());
            assert!(expected.into_iter().eq(found));
        }
    }
    assert!(longest > 20, "too few pairs to say much: {longest}");
}

/// Chains multiply with every call, so only modules in which they stay countable are followed.
fn call_depth_is_small(module: &ModuleFile) -> bool {
    let mut chains: Vec<usize> = Vec::new();
    for sheet in &module.sheets {
        let called = calls(sheet).map(|(callee, _)| chains[callee]);
        chains.push(called.fold(1, usize::saturating_add));
    }
    chains.iter().all(|&count| count < 10_000)
}

/// The callee and the operands of each Call.
fn calls(sheet: &Sheet) -> impl Iterator<Item = (usize, &[u16])> {
    let calls = sheet.statements.iter().filter(|s| s.kind == 6);
    calls.map(|s| (usize::from(s.number), pool_part(sheet, (s.first, s.count))))
}

/// Adds what every chain from this function comes to, once `outward` has replaced its arguments.
fn follow(
    module: &ModuleFile,
    function: usize,
    outward: &dyn Fn(End) -> End,
    pairs: &mut BTreeSet<(End, End)>,
) {
    let sheet = &module.sheets[function];
    for sampling in sheet.expressions.iter().filter(|e| e.kind == 13) {
        let operands = pool_part(sheet, (sampling.first, sampling.count));
        let [image, sampler] = [operands[0], operands[1]].map(|end| outward(traced(sheet, end)));
        pairs.insert((image, sampler));
    }
    for (callee, operands) in calls(sheet) {
        let replaced = |end| match end {
            (1, argument) => outward(traced(sheet, operands[usize::from(argument)])),
            global => global,
        };
        follow(module, callee, &replaced, pairs);
    }
}

/// What an expression of an accepted module traces to.
fn traced(sheet: &Sheet, expression: u16) -> End {
    let record = sheet.expressions[usize::from(expression)];
    match record.kind {
        1 => (1, record.number),
        2 => (0, record.number),
        _ => traced(sheet, sheet.operands[usize::from(record.first)]),
    }
}

/// A section's pairs and mixed pairs in the order of one list over both: they have to ascend on their own.
fn listed(section: &Section) -> BTreeSet<(End, End)> {
    let pairs = section
        .pairs()
        .into_iter()
        .map(|p| ((0, p.image), (0, p.sampler)));
    let mixed = section.mixed().into_iter().map(|p| {
        let image = (p.image_tag, p.image);
        (image, (p.sampler_tag, p.sampler))
    });
    let (pairs, mixed): (Vec<_>, Vec<_>) = (pairs.collect(), mixed.collect());
    for list in [&pairs, &mixed] {
        assert!(list.windows(2).all(|two| two[0] < two[1]));
    }
    assert!(mixed
        .iter()
        .all(|&(image, sampler)| image.0 + sampler.0 > 0));
    pairs.into_iter().chain(mixed).collect()
}
