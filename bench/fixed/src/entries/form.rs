//! Files whose form is wrong in one way: one accepted module, with one thing changed.

use files::shapes::{deep, module, zero_level};
use files::{ModuleFile, Sheet, Statement, ABSENT};

use super::Gathered;

/// A change to the accepted module, with its name and what it is.
type Change = (&'static str, &'static str, fn(&mut ModuleFile));

/// A change to the accepted module's bytes, with its name and what it is.
type ByteChange = (&'static str, &'static str, fn(&mut Vec<u8>));

/// Where function 1's sheet begins in the accepted module, and where in it each count stands.
const SHEET_1: usize = 68;
const COUNTS: usize = SHEET_1 + 5;

pub fn gather(list: &mut Gathered) {
    list.module("form", "the module that the next ones change", &accepted());
    for (name, what, change) in BYTE_CHANGES {
        let mut file = accepted().encode();
        change(&mut file);
        list.bytes(format!("form-{name}"), what, file);
    }
    let changes = CODES
        .iter()
        .chain(&COUNTS_AND_IDLE)
        .chain(&NESTING)
        .chain(&NUMBERS)
        .chain(&ORDER);
    for (name, what, change) in changes {
        let mut module = accepted();
        change(&mut module);
        list.module(format!("form-{name}"), *what, &module);
    }
    for around in [31, 32, 33, 34, 40] {
        let name = format!("form-around-{around}");
        list.module(name, "a Break inside so many statements", &deep(around));
    }
    for before in [2, 5] {
        let name = format!("form-call-after-{before}");
        let what = "a Call with an argument too many after so many functions";
        list.module(name, what, &later_call(before));
    }
    list.module(
        "form-around-later",
        "33 around after two Breaks",
        &deep_later(),
    );
    list.module(
        "form-around-second",
        "33 around in function 1, at a Call",
        &deep_call(),
    );
}

/// Function 0 has two arguments and three expressions; function 1 has one record of every shape that matters to
/// the form, from expression 0 to 6 and from statement 0 to 14.
fn accepted() -> ModuleFile {
    let mut callee = Sheet {
        arguments: vec![0, 1],
        ..Sheet::default()
    };
    callee.expression(1, 0, 0, &[]);
    callee.expression(1, 0, 1, &[]);
    callee.expression(2, 0, 1, &[]);
    callee.statement(4, 0, &[2]);

    let mut sheet = Sheet {
        arguments: vec![0, 3],
        ..Sheet::default()
    };
    sheet.expression(2, 0, 0, &[]); // 0
    sheet.expression(1, 0, 1, &[]); // 1
    sheet.expression(4, 0, 0, &[]); // 2
    sheet.expression(5, 1, 0, &[0, 1]); // 3
    sheet.expression(13, 1, 0, &zero_level(0, 3, 1)); // 4
    sheet.expression(11, 0, 0, &[1, 2, 4]); // 5
    sheet.expression(12, 0, 0, &[5, ABSENT, 1, ABSENT]); // 6
    sheet.emit(0, 7); // 0
    sheet.statement(6, 0, &[3, 1]); // 1
    let branch = sheet.open(8, 0, &[6]); // 2
    let first = sheet.open(11, 0, &[]); // 3
    sheet.statement(5, 0, &[0, 1]); // 4
    sheet.close(first);
    sheet.open(11, 0, &[]); // 5
    sheet.close(branch);
    let switch = sheet.open(9, 0, &[1]); // 6
    sheet.open(11, 1, &[]); // 7
    sheet.open(11, 0, &[]); // 8
    sheet.close(switch);
    let repeat = sheet.open(10, 0, &[]); // 9
    let body = sheet.open(11, 0, &[]); // 10
    sheet.open(7, 0, &[]); // 11
    sheet.close(body);
    sheet.open(11, 0, &[]); // 12
    sheet.close(repeat);
    sheet.statement(3, 0, &[]); // 13
    sheet.statement(4, 0, &[6]); // 14
    sheet.initialisers = vec![1, 6];
    sheet.named = vec![0, 3, 6];
    ModuleFile {
        capabilities: 2,
        spaces: vec![10, 6, 8],
        sheets: vec![callee, sheet],
    }
}

fn cut(file: &mut Vec<u8>, length: usize) {
    file.truncate(length);
    let length = (length - 4) as u32;
    file[..4].copy_from_slice(&length.to_be_bytes());
}

fn set_count(file: &mut [u8], part: usize, count: u16) {
    let at = COUNTS + 2 * part;
    file[at..at + 2].copy_from_slice(&count.to_be_bytes());
}

const BYTE_CHANGES: [ByteChange; 30] = [
    ("empty", "no bytes", |file| file.clear()),
    ("9-bytes", "shorter than the header", |file| cut(file, 9)),
    ("length-over", "the outer length is one more", |file| {
        file[3] += 1
    }),
    ("length-under", "the outer length is one less", |file| {
        file[3] -= 1
    }),
    ("length-high", "a high bit of the outer length", |file| {
        file[0] = 128
    }),
    ("version-0", "version 0", |file| file[4] = 0),
    ("version-2", "version 2", |file| file[4] = 2),
    ("globals-259", "259 globals", |file| file[6] = 1),
    (
        "globals-256",
        "256 globals, as the space bytes are missing",
        |file| {
            file[6..8].copy_from_slice(&[1, 0]);
            cut(file, 200);
        },
    ),
    ("functions-65", "65 functions", |file| file[9] = 65),
    ("functions-3", "a third sheet is missing", |file| {
        file[9] = 3
    }),
    ("functions-1", "the second sheet is left over", |file| {
        file[9] = 1
    }),
    ("functions-0", "all sheets are left over", |file| {
        file[9] = 0
    }),
    ("header-only", "space bytes are missing", |file| {
        cut(file, 10)
    }),
    ("no-sheets", "sheets are missing", |file| cut(file, 13)),
    ("sheet-0-cut", "16 bytes are left for sheet 0", |file| {
        cut(file, 13 + 16)
    }),
    ("sheet-1-cut", "16 bytes are left for sheet 1", |file| {
        cut(file, SHEET_1 + 16)
    }),
    ("sheet-1-part-cut", "sheet 1 passes the file", |file| {
        cut(file, SHEET_1 + 17)
    }),
    ("sheet-1-length-over", "its length is one more", |file| {
        file[SHEET_1 + 3] += 1
    }),
    ("sheet-1-length-under", "its length is one less", |file| {
        file[SHEET_1 + 3] -= 1
    }),
    ("sheet-1-length-high", "a high bit of its length", |file| {
        file[SHEET_1] = 255
    }),
    ("arguments-65", "65 arguments", |file| {
        set_count(file, 0, 65)
    }),
    ("expressions-2049", "2,049 expressions", |file| {
        set_count(file, 1, 2_049)
    }),
    ("operands-8193", "8,193 operands", |file| {
        set_count(file, 2, 8_193)
    }),
    ("statements-1025", "1,025 statements", |file| {
        set_count(file, 3, 1_025)
    }),
    ("initialisers-513", "513 initialisers", |file| {
        set_count(file, 4, 513)
    }),
    ("named-513", "513 named expressions", |file| {
        set_count(file, 5, 513)
    }),
    (
        "named-512",
        "512 named expressions, as the length is wrong",
        |file| {
            set_count(file, 5, 512);
        },
    ),
    ("all-ones", "every count 65,535 and the flag 255", |file| {
        file[SHEET_1..COUNTS + 12].fill(255);
    }),
    ("left-over", "one byte after the last sheet", |file| {
        file.push(0);
        let length = file.len();
        cut(file, length);
    }),
];

/// Function 1's expression or statement at this place.
fn expression(module: &mut ModuleFile, place: usize) -> &mut files::Expression {
    &mut module.sheets[1].expressions[place]
}

fn statement(module: &mut ModuleFile, place: usize) -> &mut Statement {
    &mut module.sheets[1].statements[place]
}

/// An operand of function 1's expression at this place.
fn operand(module: &mut ModuleFile, place: usize, position: usize) -> &mut u16 {
    let first = usize::from(expression(module, place).first);
    &mut module.sheets[1].operands[first + position]
}

/// An operand of function 1's statement at this place.
fn statement_operand(module: &mut ModuleFile, place: usize, position: usize) -> &mut u16 {
    let first = usize::from(statement(module, place).first);
    &mut module.sheets[1].operands[first + position]
}

const CODES: [Change; 18] = [
    ("capability-16", "an unknown capability bit", |m| {
        m.capabilities = 16
    }),
    ("capability-128", "an unknown capability bit", |m| {
        m.capabilities = 130
    }),
    ("space-11", "an unknown space", |m| m.spaces[1] = 11),
    ("space-255", "an unknown space", |m| m.spaces[2] = 255),
    ("flag-2", "an unknown flag bit", |m| m.sheets[1].flag = 2),
    ("flag-129", "an unknown flag bit", |m| {
        m.sheets[0].flag = 129
    }),
    ("argument-4", "an unknown argument byte", |m| {
        m.sheets[1].arguments[1] = 4
    }),
    ("argument-255", "an unknown argument byte", |m| {
        m.sheets[0].arguments[0] = 255
    }),
    ("expression-19", "an unknown kind", |m| {
        expression(m, 5).kind = 19
    }),
    ("expression-255", "an unknown kind", |m| {
        expression(m, 0).kind = 255
    }),
    ("access-sub-4", "an Access has no sub 4", |m| {
        expression(m, 3).sub = 4
    }),
    ("sample-sub-5", "an ImageSample has no sub 5", |m| {
        expression(m, 4).sub = 5
    }),
    ("compose-sub-1", "a Compose has no sub 1", |m| {
        expression(m, 5).sub = 1
    }),
    ("statement-12", "an unknown kind", |m| {
        statement(m, 13).kind = 12
    }),
    ("statement-255", "an unknown kind", |m| {
        statement(m, 0).kind = 255
    }),
    ("arm-sub-2", "an Arm has no sub 2", |m| {
        statement(m, 8).sub = 2
    }),
    ("barrier-sub-1", "a Barrier has no sub 1", |m| {
        statement(m, 13).sub = 1
    }),
    ("call-sub-1", "a Call has no sub 1", |m| {
        statement(m, 1).sub = 1
    }),
];

const COUNTS_AND_IDLE: [Change; 24] = [
    ("global-count-1", "a global with an operand", |m| {
        expression(m, 0).count = 1
    }),
    ("access-count-1", "an Access with one operand", |m| {
        expression(m, 3).count = 1
    }),
    ("access-count-3", "an Access with three", |m| {
        expression(m, 3).count = 3
    }),
    ("sample-count-7", "an ImageSample with seven", |m| {
        expression(m, 4).count = 7
    }),
    ("math-count-0", "a Math without operands", |m| {
        expression(m, 6).count = 0
    }),
    ("access-number", "an idle number", |m| {
        expression(m, 3).number = 1
    }),
    ("math-number", "an idle number", |m| {
        expression(m, 6).number = 65_535
    }),
    ("global-first", "an idle first", |m| {
        expression(m, 0).first = 1
    }),
    ("absent-base", "an absent base", |m| {
        *operand(m, 3, 0) = ABSENT
    }),
    ("absent-sampler", "an absent sampler", |m| {
        *operand(m, 4, 1) = ABSENT
    }),
    ("level-with-zero", "a level that Zero doesn't have", |m| {
        *operand(m, 4, 4) = 1
    }),
    ("exact-without-level", "Exact without a level", |m| {
        expression(m, 4).sub = 2
    }),
    ("gradient-with-one", "Gradient with one level", |m| {
        expression(m, 4).sub = 4;
        *operand(m, 4, 4) = 1;
    }),
    ("absent-in-compose", "an absent entry", |m| {
        *operand(m, 5, 2) = ABSENT
    }),
    ("absent-math-0", "an absent first operand", |m| {
        *operand(m, 6, 0) = ABSENT
    }),
    ("emit-count", "an Emit with a count", |m| {
        statement(m, 0).count = 1
    }),
    ("barrier-number", "an idle number", |m| {
        statement(m, 13).number = 1
    }),
    ("barrier-first", "an idle first", |m| {
        statement(m, 13).first = 1
    }),
    ("loop-first", "an idle first", |m| {
        statement(m, 9).first = 65_535
    }),
    ("if-count-0", "an If without a condition", |m| {
        statement(m, 2).count = 0
    }),
    ("return-count-2", "a Return of two", |m| {
        statement(m, 14).count = 2
    }),
    ("absent-stored", "an absent value", |m| {
        *statement_operand(m, 4, 1) = ABSENT
    }),
    ("absent-argument", "an absent argument", |m| {
        *statement_operand(m, 1, 0) = ABSENT
    }),
    ("absent-initialiser", "an absent entry", |m| {
        m.sheets[1].initialisers[1] = ABSENT
    }),
];

const NESTING: [Change; 20] = [
    ("end-0", "an end of zero", |m| statement(m, 0).end = 0),
    ("end-itself", "an end that is the record itself", |m| {
        statement(m, 11).end = 11
    }),
    ("end-past-table", "an end past the table", |m| {
        statement(m, 14).end = 16
    }),
    ("end-past-owner", "an end past the owner's", |m| {
        statement(m, 11).end = 13
    }),
    ("leaf-holds", "a Call that holds another", |m| {
        statement(m, 1).end = 3
    }),
    ("arm-in-arm", "an Arm directly in an Arm", |m| {
        statement(m, 11).kind = 11
    }),
    ("arm-at-top", "an Arm at the top", |m| {
        *statement(m, 13) = empty(11, 13)
    }),
    ("block-in-if", "a Block directly in an If", |m| {
        statement(m, 5).kind = 7
    }),
    ("break-in-switch", "a Break directly in a Switch", |m| {
        *statement(m, 8) = empty(1, 8);
    }),
    ("falls-in-if", "an If's arm falls through", |m| {
        statement(m, 3).sub = 1
    }),
    ("falls-in-loop", "a Loop's arm falls through", |m| {
        statement(m, 12).sub = 1
    }),
    ("if-one-arm", "an If with one arm", |m| {
        statement(m, 3).end = 6;
        statement(m, 5).kind = 7;
    }),
    ("loop-three-arms", "a Loop with three arms", |m| {
        statement(m, 10).end = 11;
        statement(m, 11).kind = 11;
    }),
    ("if-no-arms", "an If without arms", |m| {
        let condition = *statement(m, 14);
        *statement(m, 14) = Statement {
            kind: 8,
            ..condition
        };
    }),
    ("loop-no-arms", "a Loop without arms", |m| {
        *statement(m, 13) = empty(10, 13)
    }),
    ("switch-shorter", "a Switch that ends before its arm", |m| {
        statement(m, 6).end = 8
    }),
    ("if-longer", "an If that ends after its arms", |m| {
        statement(m, 2).end = 7
    }),
    ("block-at-end", "a Block at the end", |m| {
        *statement(m, 13) = empty(7, 13)
    }),
    ("block-holds-last", "a Block that holds the last", |m| {
        *statement(m, 13) = empty(7, 14);
    }),
    ("switch-one-arm", "a Switch with one arm", |m| {
        statement(m, 7).end = 9;
        statement(m, 8).kind = 7;
    }),
];

/// A statement without operands that ends behind the record `last`.
fn empty(kind: u8, last: u16) -> Statement {
    Statement {
        kind,
        end: last + 1,
        ..Statement::default()
    }
}

const NUMBERS: [Change; 25] = [
    ("operand-itself", "an operand naming its record", |m| {
        *operand(m, 3, 1) = 3
    }),
    ("operand-later", "an operand naming a later one", |m| {
        *operand(m, 4, 2) = 5
    }),
    ("operand-65534", "an operand just under absent", |m| {
        *operand(m, 6, 3) = 65_534
    }),
    ("pool-past-by-one", "a pool part past by one", |m| {
        let pool = m.sheets[1].operands.len() as u16;
        expression(m, 5).first = pool - 2;
    }),
    ("pool-65535", "a pool part at 65,535", |m| {
        expression(m, 5).first = 65_535
    }),
    ("pool-count-65535", "a pool part of 65,535", |m| {
        expression(m, 5).count = 65_535
    }),
    (
        "pool-past-and-absent",
        "where it is past, absence isn't asked",
        |m| {
            *m.sheets[1].operands.last_mut().expect("a pool") = ABSENT;
            let pool = m.sheets[1].operands.len() as u16;
            expression(m, 5).first = pool - 1;
        },
    ),
    ("argument-2", "no such argument", |m| {
        expression(m, 1).number = 2
    }),
    ("global-3", "no such global", |m| {
        expression(m, 0).number = 3
    }),
    ("result-of-itself", "a result of its own function", |m| {
        expression(m, 2).number = 1
    }),
    ("emit-backwards", "a start past its end", |m| {
        statement(m, 0).number = 8
    }),
    ("emit-past", "an end past the expressions", |m| {
        statement(m, 0).first = 8
    }),
    ("emit-empty-past", "an empty range past them", |m| {
        (statement(m, 0).number, statement(m, 0).first) = (8, 8);
    }),
    ("emit-empty-at-end", "an empty range at their end", |m| {
        statement(m, 0).number = 7;
    }),
    ("call-itself", "a Call of its own function", |m| {
        statement(m, 1).number = 1
    }),
    ("call-65535", "a Call of no function", |m| {
        statement(m, 1).number = 65_535
    }),
    ("stored-7", "a value that is no expression", |m| {
        *statement_operand(m, 4, 1) = 7
    }),
    ("condition-65534", "a condition that is none", |m| {
        *statement_operand(m, 2, 0) = 65_534
    }),
    ("return-pool", "a pool part past the pool", |m| {
        statement(m, 14).first = 9_999
    }),
    ("initialiser-7", "no expression", |m| {
        m.sheets[1].initialisers[0] = 7
    }),
    ("named-7", "no expression", |m| m.sheets[1].named[2] = 7),
    ("named-absent", "an absent entry", |m| {
        m.sheets[1].named[0] = ABSENT
    }),
    ("call-1-argument", "one argument less", |m| {
        statement(m, 1).count = 1
    }),
    ("call-3-arguments", "one argument more", |m| {
        statement(m, 1).first -= 1;
        statement(m, 1).count = 3;
        *statement_operand(m, 1, 0) = 0;
    }),
    ("call-no-arguments", "no arguments", |m| {
        (statement(m, 1).first, statement(m, 1).count) = (0, 0);
    }),
];

const ORDER: [Change; 9] = [
    ("order-4-before-5", "a wrong sub and count", |m| {
        expression(m, 3).sub = 4;
        expression(m, 3).count = 1;
    }),
    (
        "order-5-before-6",
        "an idle number and a later operand",
        |m| {
            expression(m, 3).number = 1;
            *operand(m, 3, 0) = 6;
        },
    ),
    (
        "order-record-before-record",
        "6 at an earlier record than 4",
        |m| {
            *operand(m, 3, 0) = 6;
            expression(m, 4).kind = 19;
        },
    ),
    (
        "order-expression-first",
        "4 at a statement, 6 at an expression",
        |m| {
            statement(m, 0).kind = 12;
            expression(m, 6).first = 65_000;
        },
    ),
    (
        "order-arms-last",
        "a Loop without arms, then an unknown kind",
        |m| {
            *statement(m, 13) = empty(10, 13);
            statement(m, 14).kind = 12;
        },
    ),
    (
        "order-arms-before-list",
        "a Loop without arms, a wrong initialiser",
        |m| {
            *statement(m, 13) = empty(10, 13);
            m.sheets[1].initialisers[0] = ABSENT;
        },
    ),
    (
        "order-sheet-before-sheet",
        "6 in sheet 0, 4 in sheet 1",
        |m| {
            m.sheets[0].statements[0].first = 1;
            m.sheets[1].flag = 2;
        },
    ),
    (
        "order-6-before-10",
        "a Call of no function with one argument",
        |m| {
            statement(m, 1).number = 1;
            statement(m, 1).count = 1;
        },
    ),
    (
        "order-form-before-rule",
        "8 in sheet 0, 6 at the last named",
        |m| {
            m.sheets[0].expression(5, 3, 0, &[0, 0]);
            *m.sheets[1].named.last_mut().expect("named") = 65_534;
        },
    ),
];

/// A Call with a wrong number of arguments inside 33 others, after an empty function.
fn deep_call() -> ModuleFile {
    let mut module = deep(33);
    let break_at = module.sheets[0].statements.len() - 1;
    module.sheets[0].statements[break_at].kind = 6;
    module.sheets.insert(
        0,
        Sheet {
            arguments: vec![0],
            ..Sheet::default()
        },
    );
    module
}

/// Two Breaks, and then a Break inside 33 others.
fn deep_later() -> ModuleFile {
    let mut module = deep(33);
    let statements = &mut module.sheets[0].statements;
    for statement in statements.iter_mut() {
        statement.end += 2;
    }
    statements.splice(0..0, [empty(1, 0), empty(1, 1)]);
    module
}

/// After so many empty functions, one with so many Calls of the first of them and one more with an argument.
fn later_call(before: usize) -> ModuleFile {
    let mut sheet = Sheet::default();
    sheet.expression(0, 0, 0, &[]);
    for _ in 0..before {
        sheet.statement(6, 0, &[]);
    }
    sheet.statement(6, 0, &[0]);
    let mut sheets = vec![Sheet::default(); before];
    sheets.push(sheet);
    module(0, sheets)
}

#[cfg(test)]
mod tests {
    use super::*;
    use reference::{analyse, Answer};

    #[test]
    fn the_module_is_accepted_and_the_sheet_stands_there() {
        let module = accepted();
        assert!(matches!(analyse(&module.encode()), Answer::Report(_)));
        let before = 13 + module.sheets[0].encoded_len();
        assert_eq!(before, SHEET_1);
    }
}
