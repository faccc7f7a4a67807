//! The walk: where arms start, what statements leave behind, what a Call takes, what joins.
//! Expected values were worked out by hand; sentences in quotes are the paper's.

use crate::common::{module, one, refusal, report};
use files::{ModuleFile, Sheet};
use reference::report::Report;
use reference::{analyse, Answer};

const KILL: u8 = 2;
const BARRIER: u8 = 3;
const RETURN: u8 = 4;

/// A function of 0 a literal, 1 a local, 2 a CooperativeLoad, with control flow checked.
fn checked(fill: impl FnOnce(&mut Sheet)) -> ModuleFile {
    one(&[], |sheet| {
        sheet.flag = 1;
        sheet.expression(0, 0, 0, &[]);
        sheet.expression(3, 0, 0, &[]);
        sheet.expression(17, 0, 0, &[0, 0]);
        fill(sheet);
    })
}

/// Opens, fills and closes one arm.
fn arm(sheet: &mut Sheet, sub: u8, fill: impl FnOnce(&mut Sheet)) {
    let at = sheet.open(11, sub, &[]);
    fill(sheet);
    sheet.close(at);
}

fn nothing(_: &mut Sheet) {}

fn emit_cooperative(sheet: &mut Sheet) {
    sheet.emit(2, 3);
}

fn statement(kind: u8) -> impl FnOnce(&mut Sheet) {
    move |sheet| {
        sheet.statement(kind, 0, &[]);
    }
}

/// An If on the local, with this inside its first arm.
fn under_local(sheet: &mut Sheet, fill: impl FnOnce(&mut Sheet)) {
    let branch = sheet.open(8, 0, &[1]);
    arm(sheet, 0, fill);
    arm(sheet, 0, nothing);
    sheet.close(branch);
}

/// Refused with 11 at expression 2, with this cause and value.
#[track_caller]
fn disrupted(module: &ModuleFile, cause: u8, value: u16) {
    let mut expected = refusal(11, 0, 2);
    (expected.cause, expected.value) = (cause, value);
    assert_eq!(analyse(&module.encode()), Answer::Refused(expected));
}

/// "A function starts with no disruptor." A Return or Kill at the top leaves none: "may kill, if a disruptor
/// is present", "may return, if a disruptor is present".
#[test]
fn top_leaves_no_disruptor() {
    report(&checked(|sheet| {
        sheet.statement(KILL, 0, &[]);
        sheet.statement(RETURN, 0, &[]);
        emit_cooperative(sheet);
    }));
}

/// "After each statement a missing disruptor becomes Return if the statement may return, else Discard if it
/// may kill": missing only, so what came first stays.
#[test]
fn first_disruptor_stays() {
    let after = |first, second| {
        checked(|sheet| {
            under_local(sheet, statement(first));
            under_local(sheet, statement(second));
            emit_cooperative(sheet);
        })
    };
    disrupted(&after(KILL, RETURN), 3, 0);
    disrupted(&after(RETURN, KILL), 2, 0);
    // One statement that may do both leaves Return.
    let both = checked(|sheet| {
        under_local(sheet, |sheet| {
            sheet.statement(KILL, 0, &[]);
            sheet.statement(RETURN, 0, &[]);
        });
        emit_cooperative(sheet);
    });
    disrupted(&both, 2, 0);
}

/// "If and Switch give their arms the current one, else the condition's origin."
#[test]
fn current_disruptor_before_the_condition() {
    let module = checked(|sheet| {
        under_local(sheet, statement(RETURN));
        under_local(sheet, emit_cooperative);
    });
    disrupted(&module, 2, 0);
    let uniform = checked(|sheet| {
        let branch = sheet.open(8, 0, &[0]);
        arm(sheet, 0, emit_cooperative);
        arm(sheet, 0, emit_cooperative);
        sheet.close(branch);
    });
    report(&uniform);
}

/// "A Block starts from the current disruptor", and what is left in it reaches what comes after.
#[test]
fn blocks() {
    let inside = checked(|sheet| {
        under_local(sheet, statement(RETURN));
        let block = sheet.open(7, 0, &[]);
        emit_cooperative(sheet);
        sheet.close(block);
    });
    disrupted(&inside, 2, 0);
    let after = checked(|sheet| {
        let block = sheet.open(7, 0, &[]);
        under_local(sheet, statement(KILL));
        sheet.close(block);
        emit_cooperative(sheet);
    });
    disrupted(&after, 3, 0);
}

/// A Switch on a literal; the first arm holds an If on the local with a Return, the second emits.
fn switch_after_return(first_falls: u8, second_falls: u8) -> ModuleFile {
    checked(|sheet| {
        let switch = sheet.open(9, 0, &[0]);
        arm(sheet, first_falls, |sheet| {
            under_local(sheet, statement(RETURN))
        });
        arm(sheet, second_falls, nothing);
        arm(sheet, 0, emit_cooperative);
        sheet.close(switch);
    })
}

/// "After a falling arm the next starts from this arm's start, else its exit." The chain is broken by an arm
/// that doesn't fall.
#[test]
fn falling_through() {
    disrupted(&switch_after_return(1, 1), 2, 0);
    report(&switch_after_return(0, 1));
    report(&switch_after_return(1, 0));
    report(&switch_after_return(0, 0));
}

/// The arm's start comes before its exit: under a non-uniform selector the cause stays the selector's.
#[test]
fn falling_through_keeps_its_start() {
    let module = checked(|sheet| {
        let switch = sheet.open(9, 0, &[1]);
        arm(sheet, 1, statement(RETURN));
        arm(sheet, 0, emit_cooperative);
        sheet.close(switch);
    });
    disrupted(&module, 1, 1);
}

/// An arm's exit is that of all that it holds, "Return if the statement may return, else Discard if it may
/// kill", even where a Kill in it comes first and was the disruptor for the rest of the arm.
#[test]
fn exit_of_a_falling_arm() {
    let module = checked(|sheet| {
        let switch = sheet.open(9, 0, &[0]);
        arm(sheet, 1, |sheet| {
            under_local(sheet, statement(KILL));
            under_local(sheet, statement(RETURN));
        });
        arm(sheet, 0, emit_cooperative);
        sheet.close(switch);
    });
    disrupted(&module, 2, 0);
}

/// "From now on the continuing arm starts from the loop's disruptor, else from the body's exit: Return before
/// Discard" (02, A2). A Loop's operand disrupts nothing.
#[test]
fn loops() {
    let after_body = |operands: &[u16], body: fn(&mut Sheet)| {
        checked(|sheet| {
            let at = sheet.open(10, 0, operands);
            arm(sheet, 0, body);
            arm(sheet, 0, emit_cooperative);
            sheet.close(at);
        })
    };
    for operands in [&[][..], &[1][..]] {
        report(&after_body(operands, nothing));
        let returns = after_body(operands, |sheet| under_local(sheet, statement(RETURN)));
        disrupted(&returns, 2, 0);
        let kills = after_body(operands, |sheet| under_local(sheet, statement(KILL)));
        disrupted(&kills, 3, 0);
        let both = after_body(operands, |sheet| {
            under_local(sheet, statement(KILL));
            under_local(sheet, statement(RETURN));
        });
        disrupted(&both, 2, 0);
    }
    let under_disruptor = checked(|sheet| {
        under_local(sheet, statement(KILL));
        let at = sheet.open(10, 0, &[]);
        arm(sheet, 0, statement(RETURN));
        arm(sheet, 0, emit_cooperative);
        sheet.close(at);
    });
    disrupted(&under_disruptor, 3, 0);
}

/// After a Loop stands the exit of both its arms: a Return in the continuing arm counts where the body may kill.
#[test]
fn after_loops() {
    fn after(continuing: impl FnOnce(&mut Sheet)) -> ModuleFile {
        checked(|sheet| {
            let at = sheet.open(10, 0, &[]);
            arm(sheet, 0, |sheet| under_local(sheet, statement(KILL)));
            arm(sheet, 0, continuing);
            sheet.close(at);
            emit_cooperative(sheet);
        })
    }
    disrupted(&after(nothing), 3, 0);
    disrupted(&after(statement(RETURN)), 2, 0);
}

/// "Results join in order: first origin (only Return and Call have one), union of the rest."
#[test]
fn joining() {
    let module = one(&[], |sheet| {
        for _ in 0..4 {
            sheet.expression(3, 0, 0, &[]);
        }
        sheet.expression(8, 0, 0, &[3]);
        let branch = sheet.open(8, 0, &[1]);
        arm(sheet, 0, |sheet| {
            sheet.statement(BARRIER, 0, &[]);
        });
        arm(sheet, 0, |sheet| {
            sheet.statement(RETURN, 0, &[2]);
        });
        sheet.close(branch);
        sheet.emit(4, 5);
        sheet.statement(KILL, 0, &[]);
        sheet.statement(RETURN, 0, &[0]);
    });
    let bytes = report(&module);
    let read = Report::read(&bytes).unwrap();
    let section = read.sections()[0];
    assert_eq!(section.origin(), Some(2));
    assert_eq!(section.requirements(), 1 | 2);
    // The If may return, so the Kill after it is under a disruptor.
    assert_eq!(section.may_kill(), 1);
    let counts: Vec<u32> = section.expressions().iter().map(|e| e.references).collect();
    assert_eq!(counts, [1, 1, 1, 1, 0]);
}

/// "5 Store: pointer marks WRITE, then value R."
#[test]
fn store() {
    let module = one(&[10, 10, 10], |sheet| {
        for global in 0..3 {
            sheet.expression(2, 0, global, &[]);
        }
        sheet.expression(6, 0, 0, &[0]);
        sheet.statement(5, 0, &[3, 1]);
    });
    let bytes = report(&module);
    let read = Report::read(&bytes).unwrap();
    let section = read.sections()[0];
    assert_eq!(section.uses(), [2, 1, 0]);
    let counts: Vec<u32> = section.expressions().iter().map(|e| e.references).collect();
    assert_eq!(counts, [1, 1, 0, 1]);
}

/// "Call of function `number`: arguments R; origin, requirements and may-kill are the callee's; its uses are
/// joined." "Kind 4 copies the callee summary's origin and requirements." "A CallResult alone is no call."
#[test]
fn calls() {
    let mut callee = Sheet {
        arguments: vec![0],
        ..Sheet::default()
    };
    callee.expression(2, 0, 0, &[]);
    callee.expression(1, 0, 0, &[]);
    callee.expression(16, 0, 0, &[0]);
    under_local(&mut callee, statement(KILL));
    callee.statement(BARRIER, 0, &[]);
    callee.statement(RETURN, 0, &[1]);

    let mut caller = Sheet::default();
    caller.expression(2, 0, 1, &[]);
    caller.statement(6, 0, &[0]);
    caller.expression(4, 0, 0, &[]);
    let mut idle = Sheet::default();
    idle.expression(4, 0, 0, &[]);
    let bytes = report(&module(&[6, 6], vec![callee, caller, idle]));
    let read = Report::read(&bytes).unwrap();
    let [callee, caller, idle] = read.sections() else {
        panic!("three sections");
    };
    assert_eq!(
        (callee.origin(), callee.requirements(), callee.may_kill()),
        (Some(1), 1, 1)
    );
    assert_eq!(callee.uses(), [4, 0]);
    assert_eq!(
        (caller.origin(), caller.requirements(), caller.may_kill()),
        (Some(1), 1, 1)
    );
    assert_eq!(caller.uses(), [4, 1]);
    assert_eq!(caller.expressions()[1].origin, Some(1));
    assert_eq!(caller.expressions()[1].requirements, 1);
    assert_eq!(
        (idle.origin(), idle.requirements(), idle.may_kill()),
        (None, 0, 0)
    );
    assert_eq!(idle.uses(), [0, 0]);
    assert_eq!(idle.expressions()[0].origin, Some(1));
}

/// A callee that may return leaves no disruptor in its caller; one that may kill leaves Discard.
#[test]
fn what_a_call_leaves() {
    let after_call_of = |kind| {
        let mut callee = Sheet::default();
        callee.expression(0, 0, 0, &[]);
        callee.expression(3, 0, 0, &[]);
        under_local(&mut callee, statement(kind));
        let mut module = checked(|sheet| {
            sheet.statement(6, 0, &[]);
            emit_cooperative(sheet);
        });
        module.sheets.insert(0, callee);
        module
    };
    report(&after_call_of(RETURN));
    let mut expected = refusal(11, 1, 2);
    expected.cause = 3;
    assert_eq!(
        analyse(&after_call_of(KILL).encode()),
        Answer::Refused(expected)
    );
}

/// "Origin of non-uniformity: that of the first present operand that has one": an absent one is passed over,
/// and what an Access carries keeps its global. "Marking READ on an Access base" is an easy error.
#[test]
fn carried_global_and_origin() {
    let module = one(&[6, 10], |sheet| {
        sheet.expression(2, 0, 0, &[]); // 0: uniform global 0
        sheet.expression(3, 0, 0, &[]); // 1: local
        sheet.expression(5, 0, 0, &[0, 1]); // 2: Access, carries global 0, origin 1
        sheet.expression(6, 0, 0, &[2]); // 3: AccessIndex, carries it on
        sheet.expression(7, 0, 0, &[3]); // 4: Load
        sheet.expression(2, 0, 1, &[]); // 5: global 1
        sheet.expression(15, 0, 0, &[5, 65_535]); // 6: ImageQuery
        sheet.expression(12, 0, 0, &[0, 65_535, 4, 5]); // 7: Math
    });
    let bytes = report(&module);
    let read = Report::read(&bytes).unwrap();
    let section = read.sections()[0];
    assert_eq!(section.uses(), [1, 1 | 4]);
    let expressions = section.expressions();
    let assignable: Vec<_> = expressions.iter().map(|e| e.assignable).collect();
    let global_0 = Some(0);
    let expected = [
        global_0,
        None,
        global_0,
        global_0,
        None,
        Some(1),
        None,
        None,
    ];
    assert_eq!(assignable, expected);
    let origins: Vec<_> = expressions.iter().map(|e| e.origin).collect();
    let local = Some(1);
    let expected = [None, local, local, local, local, Some(5), Some(5), local];
    assert_eq!(origins, expected);
    let counts: Vec<_> = expressions.iter().map(|e| e.references).collect();
    assert_eq!(counts, [2, 1, 1, 1, 1, 2, 0, 0]);
}

/// "Requirements otherwise: derivative for 8; implicit level for 13 with Auto or Bias; cooperative for 17 and
/// 18."
#[test]
fn requirements() {
    let a = files::ABSENT;
    let module = one(&[10], |sheet| {
        sheet.expression(2, 0, 0, &[]);
        sheet.expression(8, 0, 0, &[0]);
        sheet.expression(17, 0, 0, &[0, 0]);
        sheet.expression(18, 0, 0, &[0, 0, 1]);
        for (sub, level_1, level_2) in [(0, a, a), (1, a, a), (2, 0, a), (3, 0, a), (4, 0, 0)] {
            sheet.expression(13, sub, 0, &[0, 0, 0, a, level_1, level_2, a, a]);
        }
    });
    let bytes = report(&module);
    let expressions = Report::read(&bytes).unwrap().sections()[0].expressions();
    let requirements: Vec<u8> = expressions.iter().map(|e| e.requirements).collect();
    assert_eq!(requirements, [0, 2, 8, 8, 4, 0, 0, 4, 0]);
}

/// "initialisers (R each)", and named ones count nothing.
#[test]
fn initialisers() {
    let module = one(&[10, 10], |sheet| {
        sheet.expression(2, 0, 0, &[]);
        sheet.expression(2, 0, 1, &[]);
        sheet.initialisers = vec![0, 0];
        sheet.named = vec![0, 1, 1];
    });
    let bytes = report(&module);
    let read = Report::read(&bytes).unwrap();
    let section = read.sections()[0];
    assert_eq!(section.uses(), [1, 4]);
    let counts: Vec<_> = section.expressions().iter().map(|e| e.references).collect();
    assert_eq!(counts, [2, 0]);
}
