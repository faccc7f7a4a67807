//! Files of right form that break a rule, or come close to it.

use files::shapes::{called, mixed, module, one, zero_level};
use files::{Expression, ModuleFile, Sheet};

use super::Gathered;

pub fn gather(list: &mut Gathered) {
    tracing(list);
    traced_calls(list);
    binding_arrays(list);
    pair_limits(list);
    chains(list);
    for before in 0..3 {
        let name = format!("callee-barrier-{before}");
        let what = "a result with a barrier, emitted under a local";
        list.module(name, what, &barrier_result(before));
    }
    for (exit, leaf) in [("kill", 2), ("return", 4)] {
        let name = format!("callee-barrier-after-{exit}");
        let what = "a result with a barrier, emitted after this under a local";
        list.module(name, what, &barrier_result_after(leaf));
    }
}

/// Expressions that a sampling's end may be, by name and number in [`ends`].
const ENDS: [(&str, u16); 8] = [
    ("global", 0),
    ("argument", 1),
    ("access-index", 4),
    ("access", 5),
    ("access-of-access", 8),
    ("access-of-argument", 10),
    ("load", 11),
    ("literal", LITERAL),
];

const LITERAL: u16 = 3;

/// The spaces of the globals in [`ends`]: an image, a binding array of images, and data. So the release has a type
/// for every expression.
const END_SPACES: [u8; 3] = [10, 10, 1];

fn ends(sheet: &mut Sheet) {
    sheet.arguments = vec![0, 0];
    sheet.expression(2, 0, 0, &[]);
    sheet.expression(1, 0, 0, &[]);
    sheet.expression(2, 0, 1, &[]);
    sheet.expression(0, 0, 0, &[]);
    sheet.expression(6, 0, 0, &[2]);
    sheet.expression(5, 2, 0, &[2, LITERAL]);
    sheet.expression(2, 0, 2, &[]);
    sheet.expression(6, 0, 0, &[6]);
    sheet.expression(6, 0, 0, &[7]);
    sheet.expression(1, 0, 1, &[]);
    sheet.expression(5, 0, 0, &[9, LITERAL]);
    sheet.expression(7, 0, 0, &[0]);
}

/// These functions, with the globals that [`ends`] wants.
fn with_ends(sheets: Vec<Sheet>) -> ModuleFile {
    ModuleFile {
        spaces: END_SPACES.to_vec(),
        ..module(0, sheets)
    }
}

fn tracing(list: &mut Gathered) {
    for (name, end) in ENDS {
        for (role, image, sampler) in [("image", end, 0), ("sampler", 1, end)] {
            let mut sheet = Sheet::default();
            ends(&mut sheet);
            sheet.expression(13, 1, 0, &zero_level(image, sampler, LITERAL));
            list.module(
                format!("trace-{role}-{name}"),
                "this end of a sampling",
                &with_ends(vec![sheet]),
            );
        }
    }
}

/// A callee that samples its first two arguments, called with each kind of end; what its third argument is
/// doesn't matter.
fn traced_calls(list: &mut Gathered) {
    for (name, end) in ENDS {
        let what = "this argument of a Call";
        list.module(format!("call-image-{name}"), what, &call_with([end, 0, 0]));
        list.module(
            format!("call-sampler-{name}"),
            what,
            &call_with([0, end, 0]),
        );
    }
    list.module(
        "call-other-load",
        "an argument that isn't sampled",
        &call_with([0, 1, 11]),
    );
    list.module(
        "call-both",
        "neither can be traced: the image's place",
        &call_with([11, LITERAL, 0]),
    );
}

fn call_with(operands: [u16; 3]) -> ModuleFile {
    let mut caller = Sheet::default();
    ends(&mut caller);
    caller.statement(6, 0, &operands);
    with_ends(vec![sampling_arguments(), caller])
}

fn sampling_arguments() -> Sheet {
    let mut callee = Sheet {
        arguments: vec![0; 3],
        ..Sheet::default()
    };
    for argument in 0..3 {
        callee.expression(1, 0, argument, &[]);
    }
    callee.expression(13, 0, 0, &zero_level(0, 1, 2));
    callee
}

/// Accesses of each sub in each space that matters, by a literal without the capability, and by a local with
/// and without it.
fn binding_arrays(list: &mut Gathered) {
    let wanted = [(1, 10, 2), (2, 10, 1), (3, 6, 4), (3, 8, 8), (3, 9, 8)];
    for (sub, space, capability) in wanted {
        let others = 15 - capability;
        let tried = [
            ("literal", 0, others),
            ("local", 3, capability),
            ("local-without", 3, others),
        ];
        for (index, index_kind, capabilities) in tried {
            let module = binding_array(capabilities, space, sub, index_kind);
            let name = format!("array-{sub}-{space}-{index}");
            list.module(name, "sub, space and index of an Access", &module);
        }
    }
    for later in 1..4 {
        let name = format!("array-2-later-{later}");
        list.module(
            name,
            "9 in a later function, at a later place",
            &later_array(later),
        );
    }
    for space in [0, 4, 7, 10] {
        let module = binding_array(15, space, 3, 0);
        list.module(format!("array-3-{space}"), "a base in this space", &module);
    }
    let deeper = one(1, |sheet| {
        sheet.expression(2, 0, 0, &[]);
        sheet.expression(6, 0, 0, &[0]);
        sheet.expression(0, 0, 0, &[]);
        sheet.expression(5, 3, 0, &[1, 2]);
    });
    list.module(
        "array-3-no-global",
        "a base that carries a global but is none",
        &deeper,
    );
}

fn binding_array(capabilities: u8, space: u8, sub: u8, index_kind: u8) -> ModuleFile {
    let mut module = one(1, |sheet| {
        sheet.expression(index_kind, 0, 0, &[]);
        sheet.expression(2, 0, 0, &[]);
        sheet.expression(5, sub, 0, &[1, 0]);
    });
    module.capabilities = capabilities;
    module.spaces = vec![space];
    module
}

/// A non-uniform index that isn't allowed, with so many functions and so many expressions before it.
fn later_array(later: u16) -> ModuleFile {
    let before = usize::from(later);
    let mut module = binding_array(0, 10, 2, 3);
    let sheet = &mut module.sheets[0];
    let literals = vec![Expression::default(); before];
    sheet.expressions.splice(0..0, literals);
    for operand in &mut sheet.operands {
        *operand += later;
    }
    let empty = vec![Sheet::default(); before];
    module.sheets.splice(0..0, empty);
    module
}

/// Pairs and mixed pairs up to the limit and past it, sampled and called.
fn pair_limits(list: &mut Gathered) {
    list.module("mixed-256", "256 mixed pairs", &mixed(256));
    list.module("mixed-257", "257 mixed pairs", &mixed(257));
    for (images, samplers) in [(16, 16), (17, 16), (32, 8), (33, 8), (3, 100)] {
        for (kind, is_mixed) in [("pairs", false), ("mixed", true)] {
            let name = format!("called-{kind}-{images}x{samplers}");
            let what = "so many calls of a function with so many mixed pairs";
            list.module(name, what, &called(images, samplers, is_mixed));
        }
    }
    let mut again = called(16, 16, false);
    for image in 0..16 {
        again.sheets[1].statement(6, 0, &[image]);
    }
    list.module("called-again", "256 pairs, all of them twice", &again);
}

/// Samplings that reach a function through several calls.
fn chains(list: &mut Gathered) {
    for length in [2, 3, 5, 8] {
        let mut sheets = vec![sampling_arguments()];
        for callee in 0..length {
            sheets.push(passing_on(callee));
        }
        let mut last = Sheet::default();
        ends(&mut last);
        last.statement(6, length, &[5, 0, LITERAL]);
        last.statement(6, length, &[0, 4, 11]);
        sheets.push(last);
        let name = format!("chain-{length}");
        list.module(
            name,
            "handles passed on through so many functions",
            &with_ends(sheets),
        );
    }
    let mut unused = called(2, 2, false);
    unused.sheets[1].expression(4, 0, 0, &[]);
    list.module("call-and-result", "a Call with its result", &unused);
    unused.sheets[1].statements.clear();
    unused.sheets[1].operands.clear();
    list.module("result-alone", "a result without its Call", &unused);
}

/// Calls this function with its own arguments, the first two also exchanged.
fn passing_on(callee: u16) -> Sheet {
    let mut sheet = Sheet {
        arguments: vec![0; 3],
        ..Sheet::default()
    };
    for argument in 0..3 {
        sheet.expression(1, 0, argument, &[]);
    }
    sheet.statement(6, callee, &[0, 1, 2]);
    sheet.statement(6, callee, &[1, 0, 2]);
    sheet
}

/// 11 by a barrier: the result of a function with a barrier, emitted under a local; so many empty functions,
/// and as many literals, stand before.
fn barrier_result(before: u16) -> ModuleFile {
    let mut callee = Sheet::default();
    callee.statement(3, 0, &[]);
    let mut caller = Sheet::default();
    let local = caller.expression(3, 0, 0, &[]);
    for _ in 0..before {
        caller.expression(0, 0, 0, &[]);
    }
    let result = caller.expression(4, 0, before, &[]);
    let switch = caller.open(9, 0, &[local]);
    let arm = caller.open(11, 0, &[]);
    caller.emit(0, result + 1);
    caller.close(arm);
    caller.close(switch);
    let mut sheets = vec![Sheet::default(); usize::from(before)];
    sheets.extend([callee, caller]);
    for sheet in &mut sheets {
        sheet.flag = 1;
    }
    module(0, sheets)
}

/// 11 by a barrier, with an exit as its cause: a Kill or Return under a local comes first.
fn barrier_result_after(leaf: u8) -> ModuleFile {
    let mut callee = Sheet::default();
    callee.statement(3, 0, &[]);
    let mut caller = Sheet::default();
    let local = caller.expression(3, 0, 0, &[]);
    let result = caller.expression(4, 0, 0, &[]);
    let switch = caller.open(9, 0, &[local]);
    let arm = caller.open(11, 0, &[]);
    caller.statement(leaf, 0, &[]);
    caller.close(arm);
    caller.close(switch);
    caller.emit(result, result + 1);
    let mut sheets = vec![callee, caller];
    for sheet in &mut sheets {
        sheet.flag = 1;
    }
    module(0, sheets)
}
