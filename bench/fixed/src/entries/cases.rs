//! Document 01's own cases, 1 to 11.

use files::shapes::{module, one, pairs, zero_level};
use files::{ModuleFile, Sheet};

use super::Gathered;

pub fn gather(list: &mut Gathered) {
    list.module("case-01", "no functions", &ModuleFile::default());
    list.module("case-02", "one empty function", &one(0, |_| {}));
    list.module("case-03", "Binary with both sides 0", &binary(0, [0, 0]));
    list.module(
        "case-04",
        "Binary of locals, sides 1 and 0",
        &binary(3, [1, 0]),
    );
    list.module(
        "case-05",
        "an operand naming its own record",
        &binary(0, [0, 2]),
    );
    for space in 0..=10 {
        let name = format!("case-06-space-{space}");
        list.module(name, "a global in this space", &in_space(space));
    }
    list.module(
        "case-07",
        "named globals, one idle, one with READ",
        &named(),
    );
    let whats = [
        (
            "case-08",
            5,
            "a callee's mixed pair, called with an Access of global 3",
        ),
        ("case-09", 3, "the same callee, called with a local"),
    ];
    for (name, kind, what) in whats {
        list.module(name, what, &call_with(kind));
    }
    list.module("case-10-top", "Kill at the top", &kill_at_the_top());
    list.module(
        "case-10-arm",
        "Kill in an arm under a local",
        &kill_in_arm(3),
    );
    list.module(
        "case-10-uniform",
        "Kill in an arm under a literal",
        &kill_in_arm(0),
    );
    list.module("case-11-256", "256 pairs", &pairs(256));
    list.module("case-11-257", "257 pairs", &pairs(257));
}

fn binary(leaf: u8, sides: [u16; 2]) -> ModuleFile {
    one(0, |sheet| {
        sheet.expression(leaf, 0, 0, &[]);
        sheet.expression(leaf, 0, 0, &[]);
        sheet.expression(9, 0, 0, &sides);
    })
}

fn in_space(space: u8) -> ModuleFile {
    let mut module = one(1, |sheet| {
        sheet.expression(2, 0, 0, &[]);
    });
    module.spaces = vec![space];
    module
}

fn named() -> ModuleFile {
    one(3, |sheet| {
        let idle = sheet.expression(2, 0, 0, &[]);
        let read = sheet.expression(2, 0, 1, &[]);
        sheet.expression(7, 0, 0, &[read]);
        sheet.named = vec![idle, read];
    })
}

/// Function 0 samples its argument with global 1; function 1 calls it with an expression of this kind.
fn call_with(kind: u8) -> ModuleFile {
    let mut callee = Sheet {
        arguments: vec![0],
        ..Sheet::default()
    };
    callee.expression(1, 0, 0, &[]);
    callee.expression(2, 0, 1, &[]);
    callee.expression(0, 0, 0, &[]);
    callee.expression(13, 1, 0, &zero_level(0, 1, 2));
    let mut caller = Sheet::default();
    caller.expression(2, 0, 3, &[]);
    caller.expression(0, 0, 0, &[]);
    // An Access reaches into a binding array of images, as it would in a shader.
    let (sub, operands): (u8, &[u16]) = if kind == 5 { (2, &[0, 1]) } else { (0, &[]) };
    let passed = caller.expression(kind, sub, 0, operands);
    caller.statement(6, 0, &[passed]);
    module(4, vec![callee, caller])
}

fn kill_at_the_top() -> ModuleFile {
    one(0, |sheet| {
        sheet.statement(2, 0, &[]);
    })
}

fn kill_in_arm(condition: u8) -> ModuleFile {
    one(0, |sheet| {
        sheet.expression(condition, 0, 0, &[]);
        let branch = sheet.open(8, 0, &[0]);
        let accept = sheet.open(11, 0, &[]);
        sheet.statement(2, 0, &[]);
        sheet.close(accept);
        sheet.open(11, 0, &[]);
        sheet.close(branch);
    })
}
