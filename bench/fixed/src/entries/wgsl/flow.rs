//! Control flow: what returns, discards, branches and loops, and what wants it to be uniform.

use super::{Program, CHECKED};
use crate::entries::Gathered;
use convert::Settings;

pub fn gather(list: &mut Gathered) {
    list.programs(GLOBALS, &EXITS);
    list.programs(GLOBALS, &BRANCHES);
    list.programs(GLOBALS, &BARRIERS);
    cooperative(list);
}

const GLOBALS: &str = "
enable wgpu_cooperative_matrix;
var<private> own: f32;
var<workgroup> w: f32;
@group(0) @binding(0) var<uniform> given: f32;
@group(0) @binding(1) var<storage, read> fixed: array<f32>;
@group(0) @binding(2) var<storage, read_write> changing: array<f32>;
";

const EXITS: [Program; 12] = [
    (
        "return-early-uniform",
        "an early return under a uniform condition",
        "fn f() -> f32 { if given > 1.0 { return 1.0; } return fixed[0]; }",
    ),
    (
        "return-early",
        "an early return under an argument",
        "fn f(x: f32) -> f32 { if x > 1.0 { return 1.0; } return given; }",
    ),
    (
        "return-non-uniform",
        "a value that isn't uniform, and its caller",
        "fn f() -> f32 { return own + changing[0]; }
         fn g() -> f32 { return f() + given; }",
    ),
    (
        "return-first-origin",
        "two returns: the first origin counts",
        "fn f(x: f32, y: f32) -> f32 { if given > 1.0 { return y; } return x; }",
    ),
    (
        "discard-top",
        "discard at the top kills no part of the invocations",
        "fn f() { discard; }",
    ),
    (
        "discard-uniform",
        "discard under a uniform condition",
        "fn f() { if given > 1.0 { discard; } }",
    ),
    (
        "discard-branch",
        "discard under an argument",
        "fn f(x: f32) { if x > 1.0 { discard; } own = 1.0; }",
    ),
    (
        "discard-else",
        "discard in the other branch",
        "fn f(x: f32) { if x > 1.0 { own = 1.0; } else { discard; } }",
    ),
    (
        "discard-after-return",
        "discard after a return under an argument",
        "fn f(x: f32) { if x > 1.0 { return; } discard; }",
    ),
    (
        "discard-called",
        "a callee that may kill, and one that doesn't",
        "fn f(x: f32) { if x > 1.0 { discard; } }
         fn g() { discard; }
         fn h() { f(1.0); }
         fn i() { g(); }",
    ),
    (
        "discard-in-switch",
        "discard in a case, a return in another",
        "fn f(x: i32) { switch x { case 0: { discard; } case 1: { return; } default: {} } own = 1.0; }",
    ),
    (
        "discard-entry",
        "a fragment entry point that may kill",
        "@fragment fn main(@location(0) x: f32) -> @location(0) vec4<f32> { if x > 0.5 { discard; } return vec4(x); }",
    ),
];

const BRANCHES: [Program; 14] = [
    (
        "switch-shared-bodies",
        "cases with several selectors, which fall through",
        "fn f(x: i32) { switch x { case 0, 1, 2: { own = 1.0; } case 3, default: { own = 2.0; } } }",
    ),
    (
        "switch-break",
        "break out of a case",
        "fn f(x: i32) { switch x { case 0: { if own > 1.0 { break; } own = 2.0; } default: { own = 3.0; } } }",
    ),
    (
        "switch-uniform",
        "a uniform selector with a return in a case",
        "fn f(x: f32) { switch i32(given) { case 0: { if x > 1.0 { return; } } default: { own = 1.0; } } }",
    ),
    (
        "loop-continuing",
        "a loop with continuing arm and break if",
        "fn f() { var i = 0; loop { own += 1.0; continuing { i += 1; break if i > 3; } } }",
    ),
    (
        "loop-break-continue",
        "break and continue",
        "fn f(x: f32) { loop { if x > 1.0 { continue; } if own > x { break; } own = x; } }",
    ),
    (
        "loop-return",
        "a return in a loop's body",
        "fn f(x: f32) -> f32 { loop { if x > own { return x; } own = 1.0; continuing { break if own > 2.0; } } return given; }",
    ),
    (
        "loop-return-discard",
        "a loop that may return and whose continuing arm discards",
        "fn f(x: i32) { loop { switch x { default { return; } } continuing { discard; } } }",
    ),
    (
        "loop-return-discard-called",
        "a call of such a function in a loop's body",
        "fn f(x: i32) { loop { if x > 1 { return; } continuing { discard; } } }
         fn g() { loop { f(1); continuing { workgroupBarrier(); discard; } } }",
    ),
    (
        "loop-for",
        "for over a literal bound",
        "fn f() { for (var i = 0; i < 4; i++) { own += fixed[i]; } }",
    ),
    (
        "loop-while",
        "while under a global that isn't uniform",
        "fn f() { while own < 4.0 { own += given; } }",
    ),
    (
        "loop-nested",
        "a loop in a loop's continuing arm and in its body",
        "fn f(x: f32) {
             loop {
                 loop { if x > 1.0 { break; } own += 1.0; }
                 if x > 2.0 { break; }
                 continuing { for (var i = 0; i < 2; i++) { own += 1.0; } }
             }
         }",
    ),
    (
        "block",
        "a block of its own",
        "fn f(x: f32) { { if x > 1.0 { return; } } own = 1.0; }",
    ),
    (
        "if-chain",
        "else if, three deep",
        "fn f(x: f32) { if x > 3.0 { own = 3.0; } else if x > 2.0 { own = 2.0; } else if x > 1.0 { own = 1.0; } else { return; } }",
    ),
    (
        "short-circuit",
        "conditions that are only partly evaluated",
        "fn f(x: f32) -> bool { return x > 1.0 && (own > 2.0 || fixed[0] > given); }",
    ),
];

const BARRIERS: [Program; 8] = [
    (
        "barrier-top",
        "a barrier in uniform control flow",
        "@compute @workgroup_size(4) fn main() { w = 1.0; workgroupBarrier(); own = w; }",
    ),
    (
        "barrier-branch",
        "a barrier under an argument: a statement, so not refused",
        "fn f(x: f32) { if x > 1.0 { storageBarrier(); } }",
    ),
    (
        "barrier-after-return",
        "a barrier after a return under an argument",
        "fn f(x: f32) { if x > 1.0 { return; } workgroupBarrier(); }",
    ),
    (
        "barrier-after-discard",
        "a barrier after a discard under an argument",
        "fn f(x: f32) { if x > 1.0 { discard; } workgroupBarrier(); }",
    ),
    (
        "barrier-called",
        "a callee's barrier counts for its callers",
        "fn f() { workgroupBarrier(); }
         fn g(x: f32) { if x > 1.0 { f(); } }
         fn h() { g(given); }",
    ),
    (
        "barrier-result",
        "a callee's result with a barrier, used under an argument",
        "fn f() -> f32 { workgroupBarrier(); return given; }
         fn g(x: f32) { if x > 1.0 { own = f() + 1.0; } }",
    ),
    (
        "barrier-in-loop",
        "barriers in both arms of a loop",
        "fn f() { loop { workgroupBarrier(); continuing { storageBarrier(); break if given > 1.0; } } }",
    ),
    (
        "derivative-branch",
        "derivatives under an argument: reported, not refused",
        "fn f(x: f32) -> f32 { if x > 1.0 { return dpdx(given) + dpdyFine(x); } return fwidthCoarse(own); }",
    ),
];

/// A cooperative load at LOAD: refused where control flow isn't uniform.
const COOPERATIVE: [Program; 15] = [
    ("top", "at the top", "fn f() { LOAD }"),
    (
        "uniform",
        "under a uniform condition",
        "fn f() { if given > 1.0 { LOAD } }",
    ),
    (
        "branch",
        "under an argument",
        "fn f(x: f32) { if x > 1.0 { LOAD } }",
    ),
    (
        "else",
        "in the other branch, under a global that isn't uniform",
        "fn f() { if own > 1.0 {} else { LOAD } }",
    ),
    (
        "after-branch",
        "after a branch that doesn't leave",
        "fn f(x: f32) { if x > 1.0 { own = x; } LOAD }",
    ),
    (
        "after-return",
        "after a return under an argument",
        "fn f(x: f32) { if x > 1.0 { return; } LOAD }",
    ),
    (
        "after-uniform-return",
        "after a return under a uniform condition",
        "fn f() { if given > 1.0 { return; } LOAD }",
    ),
    (
        "after-discard",
        "after a discard under an argument",
        "fn f(x: f32) { if x > 1.0 { discard; } LOAD }",
    ),
    (
        "after-call",
        "after a call that may kill",
        "fn f(x: f32) { if x > 1.0 { discard; } }\nfn g() { f(given); LOAD }",
    ),
    (
        "switch",
        "in a case of a switch on an argument, in a later function",
        "fn f() {}\nfn g(x: i32) { switch x { case 0: {} default: { LOAD } } }",
    ),
    (
        "loop",
        "in a loop after a return under an argument",
        "fn f(x: f32) { loop { if x > 1.0 { return; } LOAD if given > 1.0 { break; } } }",
    ),
    (
        "continuing",
        "in a continuing arm under an argument",
        "fn f(x: f32) { loop { if given > 1.0 { break; } continuing { if x > 1.0 { LOAD } } } }",
    ),
    (
        "after-body-return",
        "in the continuing arm of a loop that may return",
        "fn f(x: i32) { loop { switch x { default { return; } } continuing { LOAD } } }",
    ),
    (
        "after-body-discard",
        "in the continuing arm of a loop that may kill",
        "fn f(x: f32) { loop { if x > 1.0 { discard; } continuing { LOAD break if given > 1.0; } } }",
    ),
    (
        "after-inner-loop",
        "in the continuing arm of a loop whose body has a loop that may return",
        "fn f(x: f32) { loop { loop { if x > 1.0 { return; } continuing { break if x > 2.0; } } continuing { LOAD } } }",
    ),
];

fn cooperative(list: &mut Gathered) {
    const LOAD: &str = "let m = coopLoad<coop_mat8x8<f32, C>>(&w);";
    for (name, what, source) in COOPERATIVE {
        let source = format!("{GLOBALS}{}", source.replace("LOAD", LOAD));
        list.program(&format!("cooperative-{name}"), what, &source);
    }
    let (_, _, under_argument) = COOPERATIVE[2];
    let source = format!("{GLOBALS}{}", under_argument.replace("LOAD", LOAD));
    let unchecked = Settings {
        check_control_flow: false,
        ..CHECKED
    };
    let what = "under an argument, control flow not checked";
    list.program_under("cooperative-unchecked", what, &source, unchecked);
    let multiply = format!(
        "{GLOBALS}fn f() {{
            let a = coopLoad<coop_mat8x8<f32, A>>(&w);
            let b = coopLoad<coop_mat8x8<f32, B>>(&changing[0]);
            let c = coopLoad<coop_mat8x8<f32, C>>(&fixed[1]);
            let d = coopMultiplyAdd(a, b, c);
        }}"
    );
    list.program(
        "cooperative-multiply",
        "three loads and a multiplication",
        &multiply,
    );
}
