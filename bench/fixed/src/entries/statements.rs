//! Every kind of statement: alone, in each kind of holder, and after what may return or kill.

use files::shapes::one;
use files::{ModuleFile, Sheet};

use super::Gathered;

/// Expressions of [`function`] by what they are.
const LITERAL: u16 = 0;
const LOCAL: u16 = 1;
const GLOBAL: u16 = 2;
const COOPERATIVE: u16 = 3;
const DERIVATIVE: u16 = 4;

/// Adds some statements to a sheet.
type Fill = fn(&mut Sheet);

/// Statements to which it matters where they stand.
const PLACED: [(&str, Fill); 6] = [
    ("emit-cooperative", emit_cooperative),
    ("kill", |sheet| _ = sheet.statement(2, 0, &[])),
    ("barrier", |sheet| _ = sheet.statement(3, 0, &[])),
    ("return", |sheet| _ = sheet.statement(4, 0, &[])),
    ("return-local", |sheet| _ = sheet.statement(4, 0, &[LOCAL])),
    ("call", |sheet| _ = sheet.statement(6, 0, &[GLOBAL, LOCAL])),
];

/// Statements that do the same anywhere.
const PLAIN: [(&str, Fill); 4] = [
    ("emit-derivative", |sheet| {
        _ = sheet.emit(DERIVATIVE, DERIVATIVE + 1)
    }),
    ("emit-nothing", |sheet| _ = sheet.emit(2, 2)),
    ("break", |sheet| _ = sheet.statement(1, 0, &[])),
    ("store", |sheet| {
        _ = sheet.statement(5, 0, &[GLOBAL, LITERAL])
    }),
];

/// Puts what it is given into a statement that holds others.
type Hold = fn(&mut Sheet, Fill);

/// Places at which a statement may stand.
const HOLDERS: [(&str, Hold); 8] = [
    ("top", |sheet, fill| fill(sheet)),
    ("block", |sheet, fill| hold(sheet, 7, &[], fill)),
    ("if-local", |sheet, fill| {
        hold(sheet, 8, &[LOCAL], |sheet| arms(sheet, fill, nothing))
    }),
    ("else-local", |sheet, fill| {
        hold(sheet, 8, &[LOCAL], |sheet| arms(sheet, nothing, fill))
    }),
    ("if-literal", |sheet, fill| {
        hold(sheet, 8, &[LITERAL], |sheet| arms(sheet, fill, fill))
    }),
    ("switch-local", |sheet, fill| {
        hold(sheet, 9, &[LOCAL], |sheet| arms(sheet, fill, fill))
    }),
    ("loop-body", |sheet, fill| {
        hold(sheet, 10, &[LOCAL], |sheet| arms(sheet, fill, nothing))
    }),
    ("loop-continuing", |sheet, fill| {
        hold(sheet, 10, &[], |sheet| arms(sheet, nothing, fill))
    }),
];

pub fn gather(list: &mut Gathered) {
    for (name, fill) in PLAIN {
        list.module(name, "this statement at the top", &function(fill));
    }
    for (holder, hold) in HOLDERS {
        for (leaf, fill) in PLACED {
            let module = function(|sheet| hold(sheet, fill));
            let name = format!("{holder}-{leaf}");
            list.module(name, "this statement in this holder", &module);
        }
    }
    for (what, leaf) in [("kill", 2), ("return", 4)] {
        disruptors(list, what, leaf);
        loops(list, what, leaf);
        falling(list, what, leaf);
    }
    other_loops(list);
    list.module(
        "switch-no-arms",
        "a Switch without arms",
        &function(|sheet| {
            hold(sheet, 9, &[LITERAL], nothing);
        }),
    );
    list.module(
        "switch-last-falls",
        "the last arm falls through",
        &function(|sheet| {
            hold(sheet, 9, &[LOCAL], |sheet| arm(sheet, 1, nothing));
        }),
    );
    list.module(
        "return-origins",
        "the first origin of three Returns",
        &function(|sheet| {
            for operand in [LITERAL, GLOBAL, LOCAL] {
                sheet.statement(4, 0, &[operand]);
            }
        }),
    );
}

/// What may exit stands under a local; then a cooperative expression is emitted in several places.
fn disruptors(list: &mut Gathered, what: &str, leaf: u8) {
    for (holder, hold) in HOLDERS {
        let module = function(|sheet| {
            exit_under_local(sheet, leaf);
            hold(sheet, emit_cooperative);
        });
        let name = format!("after-{what}-{holder}");
        list.module(name, "a cooperative expression after an exit", &module);
    }
    let module = function(|sheet| {
        exit_under_local(sheet, leaf);
        exit_under_local(sheet, other_exit(leaf));
        emit_cooperative(sheet);
    });
    list.module(
        format!("after-{what}-first"),
        "two exits, this one first",
        &module,
    );
}

/// What may exit stands in a loop's body; then comes what a disruptor matters to, in its continuing arm or after it.
fn loops(list: &mut Gathered, what: &str, leaf: u8) {
    let mut entry = |name: &str, said: &str, fill: &dyn Fn(&mut Sheet)| {
        list.module(format!("loop-{what}-{name}"), said, &function(fill));
    };
    let exit = |sheet: &mut Sheet| exit_under_local(sheet, leaf);
    entry(
        "continuing",
        "the continuing arm starts from the body's exit",
        &|sheet| looped(sheet, &[], exit, emit_cooperative),
    );
    entry("after", "the loop leaves its exit behind", &|sheet| {
        looped(sheet, &[], exit, nothing);
        emit_cooperative(sheet);
    });
    entry(
        "kill",
        "Kill in a continuing arm that is disrupted",
        &|sheet| looped(sheet, &[], exit, statement(2)),
    );
    entry(
        "return-after",
        "Return in a continuing arm that is disrupted is an exit of the loop",
        &|sheet| {
            looped(sheet, &[], exit, statement(4));
            emit_cooperative(sheet);
        },
    );
    entry(
        "both",
        "two exits in the body, this one first: Return before Discard",
        &|sheet| {
            let both = |sheet: &mut Sheet| {
                exit_under_local(sheet, leaf);
                exit_under_local(sheet, other_exit(leaf));
            };
            looped(sheet, &[], both, emit_cooperative);
        },
    );
    entry(
        "break-if",
        "a loop's operand that isn't uniform, and the body's exit",
        &|sheet| looped(sheet, &[LOCAL], exit, emit_cooperative),
    );
    entry(
        "disrupted",
        "in a loop that is disrupted already both arms start from its own disruptor",
        &|sheet| {
            hold(sheet, 8, &[LOCAL], |sheet| {
                arm(sheet, 0, |sheet| {
                    looped(sheet, &[], statement(leaf), emit_cooperative)
                });
                arm(sheet, 0, nothing);
            });
        },
    );
    entry(
        "in-body",
        "a loop in a loop's body: the inner one's exit starts the outer continuing arm",
        &|sheet| {
            let inner = |sheet: &mut Sheet| looped(sheet, &[], exit, statement(4));
            looped(sheet, &[], inner, emit_cooperative);
        },
    );
    entry(
        "in-continuing",
        "a loop in a continuing arm that is disrupted",
        &|sheet| {
            let inner = |sheet: &mut Sheet| looped(sheet, &[], nothing, emit_cooperative);
            looped(sheet, &[], exit, inner);
        },
    );
    entry(
        "arms",
        "the first arm of an If that isn't disrupted hands nothing on",
        &|sheet| {
            hold(sheet, 8, &[LITERAL], |sheet| {
                arm(sheet, 0, |sheet| looped(sheet, &[], exit, nothing));
                arm(sheet, 0, emit_cooperative);
            });
        },
    );
}

/// A loop's operand, and a callee that may kill, called in a loop's arms.
fn other_loops(list: &mut Gathered) {
    list.module(
        "loop-operand-continuing",
        "a loop's operand that isn't uniform disrupts nothing",
        &function(|sheet| looped(sheet, &[LOCAL], nothing, emit_cooperative)),
    );
    let call = |sheet: &mut Sheet| _ = sheet.statement(6, 0, &[GLOBAL, LOCAL]);
    list.module(
        "loop-call-continuing",
        "a callee that may kill, called in the body",
        &function(|sheet| looped(sheet, &[], call, emit_cooperative)),
    );
    list.module(
        "loop-call-in-continuing",
        "a callee that may kill, called in the continuing arm",
        &function(|sheet| {
            looped(sheet, &[], nothing, call);
            emit_cooperative(sheet);
        }),
    );
}

/// A Loop with these operands and arms.
fn looped(
    sheet: &mut Sheet,
    operands: &[u16],
    body: impl FnOnce(&mut Sheet),
    continuing: impl FnOnce(&mut Sheet),
) {
    hold(sheet, 10, operands, |sheet| {
        arm(sheet, 0, body);
        arm(sheet, 0, continuing);
    });
}

fn statement(kind: u8) -> impl Fn(&mut Sheet) {
    move |sheet| _ = sheet.statement(kind, 0, &[])
}

/// A Switch whose first arm may exit, whose second is empty and whose third emits; the first two fall through
/// or don't. Under a selector that is a local it makes no difference whether they do.
fn falling(list: &mut Gathered, what: &str, leaf: u8) {
    let on_literal = [(0, 0), (0, 1), (1, 0), (1, 1)].map(|falls| ("literal", LITERAL, falls));
    let on_local = [(0, 0), (1, 1)].map(|falls| ("local", LOCAL, falls));
    for (selector_name, selector, (first, second)) in on_literal.into_iter().chain(on_local) {
        let module = function(|sheet| {
            hold(sheet, 9, &[selector], |sheet| {
                arm(sheet, first, |sheet| exit_under_local(sheet, leaf));
                arm(sheet, second, nothing);
                arm(sheet, 0, emit_cooperative);
            });
        });
        let name = format!("falling-{what}-{selector_name}-{first}{second}");
        list.module(name, "arms that fall through (1) or don't (0)", &module);
    }
    let both = function(|sheet| {
        hold(sheet, 9, &[LITERAL], |sheet| {
            arm(sheet, 1, |sheet| {
                exit_under_local(sheet, leaf);
                exit_under_local(sheet, other_exit(leaf));
            });
            arm(sheet, 0, emit_cooperative);
        });
    });
    let name = format!("falling-{what}-first");
    list.module(name, "two exits in an arm that falls through", &both);
}

/// Function 0 is called with two arguments: it samples the first with its global, may kill and needs a barrier.
/// Function 1 has the expressions that the statements use, and these statements. Control flow is checked in both, as
/// the release does it.
fn function(fill: impl FnOnce(&mut Sheet)) -> ModuleFile {
    let mut module = one(2, |sheet| {
        sheet.flag = 1;
        sheet.arguments = vec![0, 0];
        sheet.expression(1, 0, 0, &[]);
        sheet.expression(1, 0, 1, &[]);
        sheet.expression(2, 0, 1, &[]);
        sheet.expression(13, 1, 0, &files::shapes::zero_level(0, 2, 1));
        exit_under_local(sheet, 2);
        sheet.statement(3, 0, &[]);
        sheet.statement(4, 0, &[1]);
    });
    let mut sheet = Sheet {
        flag: 1,
        ..Sheet::default()
    };
    sheet.expression(0, 0, 0, &[]);
    sheet.expression(3, 0, 0, &[]);
    sheet.expression(2, 0, 0, &[]);
    sheet.expression(17, 0, 0, &[GLOBAL, LITERAL]);
    sheet.expression(8, 0, 0, &[LITERAL]);
    fill(&mut sheet);
    module.sheets.push(sheet);
    // Something that can be loaded cooperatively and stored to, and a sampler.
    module.spaces = vec![9, 10];
    module
}

fn hold(sheet: &mut Sheet, kind: u8, operands: &[u16], fill: impl FnOnce(&mut Sheet)) {
    let opened = sheet.open(kind, 0, operands);
    fill(sheet);
    sheet.close(opened);
}

fn arm(sheet: &mut Sheet, sub: u8, fill: impl FnOnce(&mut Sheet)) {
    let opened = sheet.open(11, sub, &[]);
    fill(sheet);
    sheet.close(opened);
}

fn arms(sheet: &mut Sheet, first: Fill, second: Fill) {
    arm(sheet, 0, first);
    arm(sheet, 0, second);
}

/// An If on expression 1, which is not uniform, with this Kill or Return in its first arm.
fn exit_under_local(sheet: &mut Sheet, leaf: u8) {
    hold(sheet, 8, &[LOCAL], |sheet| {
        arm(sheet, 0, |sheet| _ = sheet.statement(leaf, 0, &[]));
        arm(sheet, 0, nothing);
    });
}

/// Kill for Return, and Return for Kill.
fn other_exit(leaf: u8) -> u8 {
    if leaf == 2 {
        4
    } else {
        2
    }
}

fn emit_cooperative(sheet: &mut Sheet) {
    sheet.emit(COOPERATIVE, COOPERATIVE + 1);
}

fn nothing(_: &mut Sheet) {}
