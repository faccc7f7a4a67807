//! Each refusal number, at the places and in the order that the paper gives it.
//! Expected values were worked out by hand; sentences in quotes are the paper's.

use crate::common::{module, one, refusal, refused, refused_bytes, report};
use files::{Expression, ModuleFile, Sheet, Statement, ABSENT};
use reference::report::Report;
use reference::{analyse, run, Answer};

/// Ten literals, so that operands below ten are expressions.
fn literals(sheet: &mut Sheet) {
    for _ in 0..10 {
        sheet.expression(0, 0, 0, &[]);
    }
}

/// "lent report under 65,536 bytes, or working memory under its published size"; "The report buffer is all
/// zero. Any other working memory lent ends all zero after every run."
#[test]
fn refusal_1_lent_slices() {
    let empty = ModuleFile::default().encode();
    let go = |report_length, work_length, file: &[u8]| {
        let (mut report, mut work) = (vec![7; report_length], vec![7; work_length]);
        let answer = run(file, &mut report, &mut work, 100);
        assert!(work.iter().all(|&byte| byte == 0));
        let behind = answer.unwrap_or(0);
        assert!(report[behind..].iter().all(|&byte| byte == 0));
        answer
    };
    assert_eq!(go(65_535, 100, &empty), Err(refusal(1, 0, 0)));
    assert_eq!(go(65_536, 99, &empty), Err(refusal(1, 0, 0)));
    assert_eq!(go(0, 0, &[]), Err(refusal(1, 0, 0)));
    assert_eq!(go(65_536, 100, &empty), Ok(9));
    assert_eq!(go(70_000, 200, &empty), Ok(9));
    assert_eq!(go(70_000, 200, &[]), Err(refusal(2, 0, 0)));
}

/// "a length or the version is wrong, the file too long or short, bytes left over", all "outer 2".
#[test]
fn refusal_2_outer() {
    let good = [0, 0, 0, 6, 1, 0, 0, 0, 0, 0];
    for length in 0..10 {
        refused_bytes(&good[..length], 2, 0, 0);
    }
    refused_bytes(&[0, 0, 0, 7, 1, 0, 0, 0, 0, 0], 2, 0, 0);
    refused_bytes(&[0, 0, 0, 5, 1, 0, 0, 0, 0, 0], 2, 0, 0);
    refused_bytes(&[1, 0, 0, 6, 1, 0, 0, 0, 0, 0], 2, 0, 0);
    refused_bytes(&[0, 0, 0, 6, 0, 0, 0, 0, 0, 0], 2, 0, 0);
    refused_bytes(&[0, 0, 0, 6, 2, 0, 0, 0, 0, 0], 2, 0, 0);
    let mut long = vec![0; 65_537];
    long[..10].copy_from_slice(&[0, 0, 0xFF, 0xFD, 1, 0, 0, 0, 0, 0]);
    refused_bytes(&long[..65_536], 2, 0, 0);
    refused_bytes(&long, 2, 0, 0);
}

/// "2 for missing space bytes; 4 for capability then spaces": a missing space byte comes before a wrong
/// capability bit, and a count over its limit before both.
#[test]
fn order_within_the_header() {
    refused_bytes(&[0, 0, 0, 6, 1, 0xFF, 0, 1, 0, 0], 2, 0, 0);
    refused_bytes(&[0, 0, 0, 6, 1, 0xFF, 1, 1, 0, 0], 3, 0, 0);
    refused_bytes(&[0, 0, 0, 6, 1, 0, 0, 0, 0, 65], 3, 0, 0);
    // 256 globals and 64 functions are within the limits: the space bytes are missing.
    refused_bytes(&[0, 0, 0, 6, 1, 0, 1, 0, 0, 64], 2, 0, 0);
    refused_bytes(&[0, 0, 0, 7, 1, 16, 0, 1, 0, 0, 11], 4, 0, 0);
    refused_bytes(&[0, 0, 0, 8, 1, 15, 0, 2, 0, 0, 10, 11], 4, 0, 1);
}

/// "Then every sheet's form in turn: 2 if fewer than 17 bytes remain, 3, 2 if its length isn't that of its
/// parts or passes the file, 4 for the flag".
#[test]
fn order_within_a_sheet_header() {
    let mut second = Sheet::default();
    literals(&mut second);
    let good = module(&[], vec![Sheet::default(), second]).encode();
    let sheet = 10 + 17;
    let set_length = |mut file: Vec<u8>| {
        let length = (file.len() - 4) as u32;
        file[..4].copy_from_slice(&length.to_be_bytes());
        file
    };
    refused_bytes(&set_length(good[..sheet + 16].to_vec()), 2, 1, 0);
    refused_bytes(&set_length(good[..good.len() - 1].to_vec()), 2, 1, 0);

    let with = |at: usize, byte: u8| {
        let mut file = good.clone();
        file[sheet + at] = byte;
        file
    };
    refused_bytes(&with(3, 92), 2, 1, 0);
    refused_bytes(&with(4, 2), 4, 1, 0);
    for (count, limit) in [64u16, 2_048, 8_192, 1_024, 512, 512]
        .into_iter()
        .enumerate()
    {
        let at_count = |value: u16| {
            let mut file = good.clone();
            let at = sheet + 5 + 2 * count;
            file[at..at + 2].copy_from_slice(&value.to_be_bytes());
            file[sheet + 4] = 2;
            file
        };
        refused_bytes(&at_count(limit), 2, 1, 0);
        refused_bytes(&at_count(limit + 1), 3, 1, 0);
    }
}

/// "Leftover bytes after the last sheet are 2, function being the count."
#[test]
fn refusal_2_left_over() {
    let mut file = module(&[], vec![Sheet::default(); 3]).encode();
    file.push(0);
    file[3] += 1;
    refused_bytes(&file, 2, 3, 0);
}

/// "unknown code or bit, or a sub its kind doesn't have".
#[test]
fn refusal_4_codes() {
    let argument = |byte| {
        one(&[], |sheet| {
            sheet.arguments = vec![3, byte];
        })
    };
    report(&argument(3));
    refused(&argument(4), 4, 0, 1);
    for (kind, highest) in [(5, 3), (13, 4)] {
        let sub = |sub| {
            one(&[], |sheet| {
                literals(sheet);
                sheet.expression(kind, sub, 0, &[]);
            })
        };
        refused(&sub(highest), 5, 0, 10);
        refused(&sub(highest + 1), 4, 0, 10);
    }
    let expression = |kind, sub| {
        one(&[], |sheet| {
            sheet.expression(kind, sub, 9, &[]);
        })
    };
    refused(&expression(19, 0), 4, 0, 0);
    for kind in (0..19).filter(|kind| ![5, 13].contains(kind)) {
        refused(&expression(kind, 1), 4, 0, 0);
    }
    let statement = |kind, sub| {
        one(&[], |sheet| {
            sheet.open(1, 0, &[]);
            sheet.open(kind, sub, &[]);
        })
    };
    refused(&statement(12, 0), 4, 0, 1);
    refused(&statement(11, 2), 4, 0, 1);
    for kind in 0..11 {
        refused(&statement(kind, 1), 4, 0, 1);
    }
}

/// "Count is always the full list": one more and one less than it is 5 for every kind but Compose.
#[test]
fn refusal_5_operand_counts() {
    let full = [0, 0, 0, 0, 0, 2, 1, 1, 1, 2, 3, 0, 4, 8, 5, 2, 1, 2, 3];
    for (kind, full) in (0..19).zip(full) {
        let with = |count: usize| {
            let capable = [0, 1, 2, 3, 4, 5, 6, 7, 8];
            one(&[10], |sheet| {
                literals(sheet);
                sheet.expression(kind, 0, 0, &capable[..count]);
            })
        };
        if kind == 11 {
            report(&with(0));
            report(&with(9));
            continue;
        }
        refused(&with(full + 1), 5, 0, 10);
        if full > 0 {
            refused(&with(full - 1), 5, 0, 10);
        }
    }
}

/// "13 (0 Auto, 1 Zero: no level; 2 Exact, 3 Bias: the first; 4 Gradient: both)".
#[test]
fn refusal_5_levels() {
    let sample = |sub, one_level: bool, two_levels: bool| {
        let a = ABSENT;
        let level_1 = if one_level { 2 } else { a };
        let level_2 = if two_levels { 2 } else { a };
        one(&[10, 10], |sheet| {
            sheet.expression(2, 0, 0, &[]);
            sheet.expression(2, 0, 1, &[]);
            sheet.expression(0, 0, 0, &[]);
            sheet.expression(13, sub, 0, &[0, 1, 2, a, level_1, level_2, a, a]);
        })
    };
    for sub in 0..5 {
        for (level_1, level_2) in [(false, false), (true, false), (false, true), (true, true)] {
            let right = match sub {
                0 | 1 => (false, false),
                2 | 3 => (true, false),
                _ => (true, true),
            };
            if (level_1, level_2) == right {
                report(&sample(sub, level_1, level_2));
            } else {
                refused(&sample(sub, level_1, level_2), 5, 0, 3);
            }
        }
    }
}

/// "R reads, Q queries, C carries, ? may be absent": which single operand of the full list may be.
#[test]
fn refusal_5_absences() {
    let optional: [(u8, usize, &[usize]); 11] = [
        (5, 2, &[]),
        (6, 1, &[]),
        (8, 1, &[]),
        (9, 2, &[]),
        (10, 3, &[]),
        (11, 3, &[]),
        (12, 4, &[1, 2, 3]),
        (14, 5, &[2, 3, 4]),
        (15, 2, &[1]),
        (16, 1, &[]),
        (18, 3, &[]),
    ];
    for (kind, count, optional) in optional {
        for absent in 0..count {
            let mut operands = vec![0; count];
            operands[absent] = ABSENT;
            let module = one(&[], |sheet| {
                sheet.expression(0, 0, 0, &[]);
                sheet.expression(kind, 0, 0, &operands);
            });
            if optional.contains(&absent) {
                report(&module);
            } else {
                refused(&module, 5, 0, 1);
            }
        }
    }
}

/// "Fields without a use are zero; `first` is free only where count isn't zero, or in Emit."
#[test]
fn refusal_5_idle_fields() {
    let expression = |kind, number, first, count| {
        one(&[], |sheet| {
            sheet.operands = vec![0; 4];
            sheet.expressions = vec![
                Expression::default(),
                Expression {
                    kind,
                    sub: 0,
                    number,
                    first,
                    count,
                },
            ];
        })
    };
    refused(&expression(0, 1, 0, 0), 5, 0, 1);
    refused(&expression(0, 0, 1, 0), 5, 0, 1);
    refused(&expression(3, 1, 0, 0), 5, 0, 1);
    refused(&expression(2, 0, 1, 0), 5, 0, 1);
    refused(&expression(7, 1, 3, 1), 5, 0, 1);
    report(&expression(7, 0, 3, 1));

    let statement = |kind, number, first, count| {
        one(&[], |sheet| {
            sheet.expression(0, 0, 0, &[]);
            sheet.operands = vec![0; 4];
            sheet.statements = vec![Statement {
                kind,
                sub: 0,
                number,
                end: 1,
                first,
                count,
            }];
        })
    };
    report(&statement(0, 0, 1, 0));
    refused(&statement(0, 0, 1, 1), 5, 0, 0);
    for kind in [1, 2, 3, 4, 7] {
        refused(&statement(kind, 1, 0, 0), 5, 0, 0);
        refused(&statement(kind, 0, 1, 0), 5, 0, 0);
    }
    report(&statement(4, 0, 3, 1));
    refused(&statement(4, 1, 3, 1), 5, 0, 0);
    refused(&statement(6, 0, 1, 0), 5, 0, 0);
}

/// "an extent lies within its owner's", "Arms stand only directly in If, Switch and Loop, which hold nothing
/// else", "`sub` 1 in a Switch: falls through (elsewhere 5)".
#[test]
fn refusal_5_nesting() {
    // The statements, and the place of the 5.
    let bad: [(&[Nested], u16); 12] = [
        (&[(1, 0, 0)], 0),
        (&[(7, 0, 0)], 0),
        (&[(7, 0, 2)], 0),
        (&[(1, 0, 2), (1, 0, 2)], 0),
        (&[(7, 0, 2), (7, 0, 3), (1, 0, 3)], 1),
        (&[(11, 0, 1)], 0),
        (&[(7, 0, 2), (11, 0, 2)], 1),
        (&[(9, 0, 3), (11, 0, 3), (11, 0, 3)], 2),
        (&[(9, 0, 2), (7, 0, 2)], 1),
        (&[(8, 0, 3), (11, 1, 2), (11, 0, 3)], 1),
        (&[(10, 0, 3), (11, 0, 2), (11, 1, 3)], 2),
        (&[(9, 0, 3), (11, 1, 3), (11, 0, 3)], 2),
    ];
    for (records, place) in bad {
        refused(&nested(records), 5, 0, place);
    }
    let good: [&[Nested]; 4] = [
        &[(7, 0, 1)],
        &[(9, 0, 1)],
        &[(9, 0, 3), (11, 1, 2), (11, 1, 3)],
        &[(10, 0, 4), (11, 0, 3), (1, 0, 3), (11, 0, 4)],
    ];
    for records in good {
        report(&nested(records));
    }
}

/// A statement's kind, sub and end.
type Nested = (u8, u8, u16);

/// Statements of these kinds, subs and ends; an If and a Switch get operand 0.
fn nested(records: &[Nested]) -> ModuleFile {
    one(&[], |sheet| {
        sheet.expression(0, 0, 0, &[]);
        for &(kind, sub, end) in records {
            let operands: &[u16] = if matches!(kind, 8 | 9) { &[0] } else { &[] };
            let at = sheet.open(kind, sub, operands);
            sheet.statements[usize::from(at)].end = end;
        }
    })
}

/// "Once all statements have passed singly, a wrong number of arms is 5 at the first such owner."
#[test]
fn refusal_5_number_of_arms() {
    refused(&nested(&[(1, 0, 1), (8, 0, 2)]), 5, 0, 1);
    refused(&nested(&[(10, 0, 2), (11, 0, 2)]), 5, 0, 0);
    refused(
        &nested(&[(8, 0, 4), (11, 0, 2), (11, 0, 3), (11, 0, 4)]),
        5,
        0,
        0,
    );
    // The owner with a wrong number stands first, but a later record that fails singly is seen before it.
    refused(&nested(&[(8, 0, 1), (12, 0, 2)]), 4, 0, 1);
    // An initialiser comes after the statements.
    let mut module = nested(&[(8, 0, 1)]);
    module.sheets[0].initialisers = vec![ABSENT];
    refused(&module, 5, 0, 0);
    module.sheets[0].statements.insert(
        0,
        Statement {
            kind: 1,
            end: 1,
            ..Statement::default()
        },
    );
    module.sheets[0].statements[1].end = 2;
    refused(&module, 5, 0, 1);
}

/// "An absent operand in a statement or list is 5", "in statements and lists: no expression" is 6.
#[test]
fn lists() {
    let list = |initialisers: &[u16], named: &[u16]| {
        one(&[], |sheet| {
            literals(sheet);
            sheet.initialisers = initialisers.to_vec();
            sheet.named = named.to_vec();
        })
    };
    report(&list(&[9], &[9]));
    refused(&list(&[9, ABSENT], &[10]), 5, 0, 1);
    refused(&list(&[10], &[ABSENT]), 6, 0, 0);
    refused(&list(&[9], &[9, 9, ABSENT]), 5, 0, 2);
    refused(&list(&[9], &[9, 10]), 6, 0, 1);
    let returned = |operand| {
        one(&[], |sheet| {
            literals(sheet);
            sheet.statement(4, 0, &[operand]);
        })
    };
    report(&returned(9));
    refused(&returned(10), 6, 0, 0);
    refused(&returned(ABSENT), 5, 0, 0);
}

/// "pool part, Emit range (also a start past its end), global, argument or callee out of range (a callee is
/// a lower function)".
#[test]
fn refusal_6_ranges() {
    let numbered = |kind, number| {
        let mut sheet = Sheet {
            arguments: vec![1, 1],
            ..Sheet::default()
        };
        sheet.expression(kind, 0, number, &[]);
        module(&[10; 3], vec![Sheet::default(), Sheet::default(), sheet])
    };
    for (kind, bound) in [(1, 2), (2, 3), (4, 2)] {
        report(&numbered(kind, bound - 1));
        refused(&numbered(kind, bound), 6, 2, 0);
    }
    let called = |number| {
        let mut sheet = Sheet::default();
        sheet.statement(6, number, &[]);
        module(&[], vec![Sheet::default(), sheet])
    };
    report(&called(0));
    refused(&called(1), 6, 1, 0);

    let emitted = |from, to| {
        one(&[], |sheet| {
            literals(sheet);
            sheet.emit(from, to);
        })
    };
    report(&emitted(0, 10));
    report(&emitted(10, 10));
    refused(&emitted(5, 4), 6, 0, 0);
    refused(&emitted(0, 11), 6, 0, 0);
    refused(&emitted(11, 11), 6, 0, 0);

    let pooled = |first, count| {
        one(&[], |sheet| {
            sheet.operands = vec![0, 0, ABSENT];
            sheet.expression(0, 0, 0, &[]);
            sheet.expressions.push(Expression {
                kind: 11,
                first,
                count,
                ..Expression::default()
            });
        })
    };
    report(&pooled(0, 2));
    refused(&pooled(1, 2), 5, 0, 1);
    // "Where a pool part is out of range, absence isn't asked."
    refused(&pooled(1, 3), 6, 0, 1);
    refused(&pooled(65_535, 65_535), 6, 0, 1);
}

/// `around` statements around one of the given kind, alternately Switch and Arm.
fn deep(around: usize, kind: u8, number: u16, operands: &[u16]) -> ModuleFile {
    let mut sheet = Sheet::default();
    sheet.expression(0, 0, 0, &[]);
    let mut opened = Vec::new();
    for i in 0..around {
        opened.push(if i % 2 == 0 {
            sheet.open(9, 0, &[0])
        } else {
            sheet.open(11, 0, &[])
        });
    }
    sheet.statement(kind, number, operands);
    for &at in opened.iter().rev() {
        sheet.close(at);
    }
    module(&[], vec![Sheet::default(), sheet])
}

/// "a statement inside more than 32 others, arms included"; in the table's order 15 stands after 6 and
/// before 10.
#[test]
fn refusal_15_depth() {
    report(&deep(32, 1, 0, &[]));
    refused(&deep(33, 11, 0, &[]), 15, 1, 33);
    refused(&deep(34, 1, 0, &[]), 15, 1, 33);
    let block_in = |inner: fn(&mut Sheet)| {
        let mut module = deep(32, 7, 0, &[]);
        let sheet = &mut module.sheets[1];
        inner(sheet);
        let end = sheet.statements.len() as u16;
        for statement in &mut sheet.statements[..33] {
            statement.end = end;
        }
        module
    };
    refused(
        &block_in(|sheet| _ = sheet.statement(6, 0, &[0])),
        15,
        1,
        33,
    );
    refused(&block_in(|sheet| _ = sheet.statement(6, 0, &[1])), 6, 1, 33);
    refused(&deep(32, 6, 0, &[0]), 10, 1, 32);
}

/// "Call with another number of arguments than the callee has".
#[test]
fn refusal_10_call_arguments() {
    let called = |operands: &[u16]| {
        let callee = Sheet {
            arguments: vec![0, 0],
            ..Sheet::default()
        };
        let mut caller = Sheet::default();
        literals(&mut caller);
        caller.statement(1, 0, &[]);
        caller.statement(6, 0, operands);
        module(&[], vec![callee, caller])
    };
    report(&called(&[9, 9]));
    refused(&called(&[9]), 10, 1, 1);
    refused(&called(&[]), 10, 1, 1);
    refused(&called(&[9, 9, 9]), 10, 1, 1);
    refused(&called(&[9, 9, 10]), 6, 1, 1);
    refused(&called(&[9, 9, ABSENT]), 5, 1, 1);
}

/// "kind 5 or 6 with a kind 2 directly as base is that global; all else is refusal 7".
#[test]
fn refusal_7_tracing() {
    let a = ABSENT;
    let sampled = |image, sampler| {
        one(&[10, 10], |sheet| {
            sheet.arguments = vec![0];
            sheet.expression(2, 0, 0, &[]); // 0: a global
            sheet.expression(1, 0, 0, &[]); // 1: an argument
            sheet.expression(6, 0, 0, &[0]); // 2: AccessIndex of a global
            sheet.expression(5, 0, 0, &[0, 0]); // 3: Access of a global
            sheet.expression(6, 0, 0, &[2]); // 4: AccessIndex of that
            sheet.expression(6, 0, 0, &[1]); // 5: AccessIndex of an argument
            sheet.expression(7, 0, 0, &[0]); // 6: Load
            sheet.expression(13, 1, 0, &[image, sampler, 6, a, a, a, a, a]);
        })
    };
    for end in 0..4 {
        report(&sampled(end, 0));
        report(&sampled(0, end));
    }
    for end in 4..7 {
        refused(&sampled(end, 0), 7, 0, 7);
        refused(&sampled(1, end), 7, 0, 7);
    }
}

/// "sub 3 base isn't a global in Uniform or Storage" and "sub 1 to 3, index non-uniform, its capability
/// missing", with "1 sampled images and samplers, 2 storage images, 4 uniform buffers, 8 storage buffers".
#[test]
fn refusals_8_and_9_binding_arrays() {
    let access = |capabilities, space, base_kind, sub, index_kind| {
        let mut module = one(&[space], |sheet| {
            sheet.expression(2, 0, 0, &[]);
            sheet.expression(6, 0, 0, &[0]);
            sheet.expression(index_kind, 0, 0, &[]);
            let base = if base_kind == 2 { 0 } else { 1 };
            sheet.expression(5, sub, 0, &[base, 2]);
        });
        module.capabilities = capabilities;
        module
    };
    for space in 0..=10 {
        if matches!(space, 6 | 8 | 9) {
            report(&access(0, space, 2, 3, 0));
        } else {
            refused(&access(15, space, 2, 3, 0), 8, 0, 3);
        }
        refused(&access(15, space, 6, 3, 3), 8, 0, 3);
        report(&access(0, space, 2, 0, 3));
    }
    for (sub, space, bit) in [(1, 10, 2), (2, 10, 1), (3, 6, 4), (3, 8, 8), (3, 9, 8)] {
        report(&access(bit, space, 2, sub, 3));
        report(&access(0, space, 2, sub, 0));
        refused(&access(15 - bit, space, 2, sub, 3), 9, 0, 3);
    }
    report(&access(2, 10, 6, 1, 3));
}

/// "a 257th pair or mixed pair would enter"; place: "in 12 the sampling expression or the Call".
#[test]
fn refusal_12_mixed_and_called() {
    let a = ABSENT;
    let mut callee = Sheet {
        arguments: vec![0; 2],
        ..Sheet::default()
    };
    callee.expression(1, 0, 0, &[]);
    callee.expression(1, 0, 1, &[]);
    callee.expression(13, 1, 0, &[0, 1, 0, a, a, a, a, a]);
    let calling = |pairs: u16| {
        let mut caller = Sheet::default();
        for global in 0..34 {
            caller.expression(2, 0, global, &[]);
        }
        for i in 0..pairs {
            caller.statement(6, 0, &[i / 17, 17 + i % 17]);
        }
        module(&[10; 34], vec![callee.clone(), caller])
    };
    report(&calling(256));
    refused(&calling(257), 12, 1, 256);

    let mixed = |pairs: u16| {
        one(&[10; 34], |sheet| {
            sheet.arguments = vec![0; 17];
            for argument in 0..17 {
                sheet.expression(1, 0, argument, &[]);
            }
            for global in 0..17 {
                sheet.expression(2, 0, global, &[]);
            }
            for i in 0..pairs {
                sheet.expression(13, 1, 0, &[i / 17, 17 + i % 17, 0, a, a, a, a, a]);
            }
        })
    };
    let bytes = report(&mixed(256));
    assert_eq!(
        Report::read(&bytes).unwrap().sections()[0].mixed().len(),
        256
    );
    refused(&mixed(257), 12, 0, 34 + 256);
}

/// "the report would pass 65,536", "14 comes last in each function": 9 bytes before the first section, 10
/// and 9 an expression in each.
#[test]
fn refusal_14_report_size() {
    let functions = |counts: &[usize], globals: usize| {
        let sheets = counts.iter().map(|&count| Sheet {
            expressions: vec![Expression::default(); count],
            ..Sheet::default()
        });
        module(&vec![0; globals], sheets.collect())
    };
    // 9 + 4 * (10 + 3) + 9 * 7,275 = 65,536.
    let bytes = report(&functions(&[2_048, 2_048, 2_048, 1_131], 3));
    assert_eq!(bytes.len(), 65_536);
    // 9 + 4 * (10 + 1) + 9 * 7,276 = 65,537.
    refused(&functions(&[2_048, 2_048, 2_048, 1_132], 1), 14, 3, 0);
    // The last expression of the function that is too much breaks a rule: that is seen first.
    let mut earlier = functions(&[2_048, 2_048, 2_048, 1_131], 1);
    earlier.sheets[3].expression(5, 3, 0, &[0, 0]);
    refused(&earlier, 8, 3, 1_131);
}

/// "With the flag set and a disruptor present, a barrier or cooperative one is refusal 11", "place: the
/// expression", "for 11: 1 expression with its number, 2 Return, 3 Discard".
#[test]
fn refusal_11_causes() {
    let disrupted = |flag, inside: Option<u8>, emitted_kind| {
        one(&[], |sheet| {
            sheet.flag = flag;
            sheet.expression(0, 0, 0, &[]);
            sheet.expression(3, 0, 0, &[]);
            sheet.expression(9, 0, 0, &[0, 1]);
            sheet.expression(emitted_kind, 0, 0, &[0, 0]);
            let branch = sheet.open(8, 0, &[2]);
            let accept = sheet.open(11, 0, &[]);
            match inside {
                Some(kind) => sheet.statement(kind, 0, &[]),
                None => sheet.emit(0, 4),
            };
            sheet.close(accept);
            sheet.open(11, 0, &[]);
            sheet.close(branch);
            sheet.emit(3, 4);
        })
    };
    let refused_11 = |module: ModuleFile, cause, value| {
        let mut expected = refusal(11, 0, 3);
        (expected.cause, expected.value) = (cause, value);
        assert_eq!(analyse(&module.encode()), Answer::Refused(expected));
    };
    refused_11(disrupted(1, None, 17), 1, 1);
    refused_11(disrupted(1, Some(4), 17), 2, 0);
    refused_11(disrupted(1, Some(2), 17), 3, 0);
    report(&disrupted(1, Some(1), 17));
    report(&disrupted(0, None, 17));
    report(&disrupted(1, None, 9));
}

/// "Only then the rules, function by function": a wrong form in a later function comes before a wrong rule
/// in an earlier one.
#[test]
fn form_before_rules() {
    let mut first = Sheet::default();
    first.expression(0, 0, 0, &[]);
    first.expression(5, 3, 0, &[0, 0]);
    let mut second = Sheet::default();
    second.expression(19, 0, 0, &[]);
    refused(&module(&[], vec![first.clone()]), 8, 0, 1);
    refused(&module(&[], vec![first, second]), 4, 1, 0);
}
