//! Document 01's own cases, 1 to 11. Expected values were worked out by hand; each test cites its sentence.

use crate::common::{module, one, refused, report};
use files::{ModuleFile, Sheet, ABSENT};
use reference::report::{MixedPair, Pair, Report};
use reference::{analyse, Answer};

/// "Module `00 00 00 06 01 00 00 00 00 00` gives `00 00 00 05 01 00 00 00 00`."
#[test]
fn case_1_no_functions() {
    let file = [0, 0, 0, 6, 1, 0, 0, 0, 0, 0];
    let report = vec![0, 0, 0, 5, 1, 0, 0, 0, 0];
    assert_eq!(ModuleFile::default().encode(), file);
    assert_eq!(analyse(&file), Answer::Report(report));
}

/// "One empty function, `00 00 00 17 01 00 00 00 00 01 00 00 00 0D 00` and twelve zeros, gives
/// `00 00 00 0F 01 00 00 00 01 FF FF` and eight zeros."
#[test]
fn case_2_one_empty_function() {
    let mut file = vec![0, 0, 0, 0x17, 1, 0, 0, 0, 0, 1, 0, 0, 0, 0x0D, 0];
    file.extend([0; 12]);
    let mut report = vec![0, 0, 0, 0x0F, 1, 0, 0, 0, 1, 0xFF, 0xFF];
    report.extend([0; 8]);
    assert_eq!(one(&[], |_| {}).encode(), file);
    assert_eq!(analyse(&file), Answer::Report(report));
}

/// "Binary with both sides 0: count 2."
#[test]
fn case_3_both_sides_count() {
    let module = one(&[], |sheet| {
        sheet.expression(0, 0, 0, &[]);
        sheet.expression(9, 0, 0, &[0, 0]);
    });
    let bytes = report(&module);
    #[rustfmt::skip]
    let expected = [
        0, 0, 0, 33, 1, 0, 0, 0, 1,
        0xFF, 0xFF, 0, 0, 0, 2, 0, 0, 0, 0,
        0xFF, 0xFF, 0, 0, 0, 0, 2, 0xFF, 0xFF,
        0xFF, 0xFF, 0, 0, 0, 0, 0, 0xFF, 0xFF,
    ];
    assert_eq!(bytes, expected);
}

/// "Binary of kind 3 leaves, sides 1 and 0: origin 1."
#[test]
fn case_4_first_operand_gives_the_origin() {
    let module = one(&[], |sheet| {
        sheet.expression(3, 0, 0, &[]);
        sheet.expression(3, 0, 0, &[]);
        sheet.expression(9, 0, 0, &[1, 0]);
    });
    let bytes = report(&module);
    let expressions = Report::read(&bytes).unwrap().sections()[0].expressions();
    assert_eq!(expressions[2].origin, Some(1));
    // "Every present operand adds one to its target's reference count, also after a non-uniform one."
    assert_eq!(expressions[0].references, 1);
    assert_eq!(expressions[1].references, 1);
}

/// "An operand naming its own record: 6."
#[test]
fn case_5_own_record() {
    let module = one(&[], |sheet| {
        sheet.expression(0, 0, 0, &[]);
        sheet.expression(7, 0, 0, &[1]);
    });
    refused(&module, 6, 0, 1);
}

/// "Space 8 uniform, 9 not." And "Uniform: 4 to 8" for all eleven.
#[test]
fn case_6_uniform_spaces() {
    let spaces: Vec<u8> = (0..=10).collect();
    let module = one(&spaces, |sheet| {
        for global in 0..=10 {
            sheet.expression(2, 0, global, &[]);
        }
    });
    let bytes = report(&module);
    let expressions = Report::read(&bytes).unwrap().sections()[0].expressions();
    for (number, expression) in (0u16..).zip(&expressions) {
        let uniform = matches!(number, 4..=8);
        assert_eq!(expression.origin, (!uniform).then_some(number));
        assert_eq!(expression.assignable, Some(number));
    }
}

/// "A named idle global gets QUERY; one with READ keeps READ."
#[test]
fn case_7_named_globals() {
    let module = one(&[10, 10, 10], |sheet| {
        let idle = sheet.expression(2, 0, 0, &[]);
        let read = sheet.expression(2, 0, 1, &[]);
        sheet.expression(7, 0, 0, &[read]);
        sheet.named = vec![idle, read];
    });
    let bytes = report(&module);
    let sections = Report::read(&bytes).unwrap();
    assert_eq!(sections.sections()[0].uses(), [4, 1, 0]);
}

/// A callee that samples its argument 0 with global 1: the mixed pair (argument 0, global 1).
fn sampling_callee() -> Sheet {
    let mut callee = Sheet {
        arguments: vec![0],
        ..Sheet::default()
    };
    callee.expression(1, 0, 0, &[]);
    callee.expression(2, 0, 1, &[]);
    callee.expression(0, 0, 0, &[]);
    let a = ABSENT;
    callee.expression(13, 1, 0, &[0, 1, 2, a, a, a, a, a]);
    callee
}

/// "Callee mixed (argument 0, global 1) called with an Access of global 3: pair (3,1)."
#[test]
fn case_8_call_with_an_access_of_a_global() {
    let mut caller = Sheet::default();
    caller.expression(2, 0, 3, &[]);
    caller.expression(0, 0, 0, &[]);
    caller.expression(5, 0, 0, &[0, 1]);
    caller.statement(6, 0, &[2]);
    let bytes = report(&module(&[10; 4], vec![sampling_callee(), caller]));
    let read = Report::read(&bytes).unwrap();
    let [callee, caller] = read.sections() else {
        panic!("two sections");
    };
    let mixed = MixedPair {
        image_tag: 1,
        sampler_tag: 0,
        image: 0,
        sampler: 1,
    };
    assert_eq!(callee.mixed(), [mixed]);
    assert_eq!(callee.pairs(), []);
    assert_eq!(caller.mixed(), []);
    let pair = Pair {
        image: 3,
        sampler: 1,
    };
    assert_eq!(caller.pairs(), [pair]);
    // The Access carries global 3, the Call reads it; the callee's READ of global 1 is joined.
    assert_eq!(caller.uses(), [0, 1, 0, 1]);
}

/// "Called with a local: 7." And "in a Call the argument expression": expression 1 here.
#[test]
fn case_9_call_with_a_local() {
    let mut caller = Sheet::default();
    caller.expression(0, 0, 0, &[]);
    caller.expression(3, 0, 0, &[]);
    caller.statement(1, 0, &[]);
    caller.statement(6, 0, &[1]);
    refused(&module(&[10; 4], vec![sampling_callee(), caller]), 7, 1, 1);
}

/// "Kill at the top: may-kill 0; in an arm under a non-uniform condition: 1."
#[test]
fn case_10_kill() {
    let top = one(&[], |sheet| {
        sheet.statement(2, 0, &[]);
    });
    let under = |condition_kind| {
        one(&[], |sheet| {
            let condition = sheet.expression(condition_kind, 0, 0, &[]);
            let branch = sheet.open(8, 0, &[condition]);
            let accept = sheet.open(11, 0, &[]);
            sheet.statement(2, 0, &[]);
            sheet.close(accept);
            sheet.open(11, 0, &[]);
            sheet.close(branch);
        })
    };
    let may_kill = |module: &ModuleFile| {
        let bytes = report(module);
        let may_kill = Report::read(&bytes).unwrap().sections()[0].may_kill();
        may_kill
    };
    assert_eq!(may_kill(&top), 0);
    assert_eq!(may_kill(&under(0)), 0);
    assert_eq!(may_kill(&under(3)), 1);
}

/// A function that samples `count` different pairs of globals, and then the first again.
fn samples(count: u16) -> ModuleFile {
    one(&[10; 32], |sheet| {
        for global in 0..32 {
            sheet.expression(2, 0, global, &[]);
        }
        let coordinate = sheet.expression(0, 0, 0, &[]);
        for i in (0..count).chain([0]) {
            let (image, sampler) = (i / 16, i % 16);
            let a = ABSENT;
            sheet.expression(13, 1, 0, &[image, sampler, coordinate, a, a, a, a, a]);
        }
    })
}

/// "256 pairs pass, 257 refuse." And in 12 the place is "the sampling expression". A pair that is already
/// there doesn't enter again.
#[test]
fn case_11_most_pairs() {
    let bytes = report(&samples(256));
    let pairs = Report::read(&bytes).unwrap().sections()[0].pairs();
    assert_eq!(pairs.len(), 256);
    assert!(pairs
        .windows(2)
        .all(|two| { (two[0].image, two[0].sampler) < (two[1].image, two[1].sampler) }));
    refused(&samples(257), 12, 0, 33 + 256);
}
