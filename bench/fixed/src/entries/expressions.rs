//! Every kind of expression with every sub: each operand present and absent, uniform and not.

use files::shapes::one;
use files::{ModuleFile, Sheet, ABSENT};

use super::Gathered;

/// A kind with its operands: how many there are, and which of them may be absent.
struct Kind {
    code: u8,
    name: &'static str,
    sub: u8,
    count: usize,
    optional: &'static [usize],
}

impl Kind {
    /// ImageSample's subs have the same operands but for the levels: one of them is tried with each operand
    /// absent and each a local.
    fn has_variants(&self) -> bool {
        self.code != 13 || self.sub == 4
    }

    /// Whether the release has a type for it only where its first operand is an image or a binding array.
    fn wants_handle(&self) -> bool {
        matches!((self.code, self.sub), (5, 1 | 2) | (13..=15, _))
    }
}

const fn kind(
    code: u8,
    name: &'static str,
    sub: u8,
    count: usize,
    optional: &'static [usize],
) -> Kind {
    Kind {
        code,
        name,
        sub,
        count,
        optional,
    }
}

/// The kinds with operands. An ImageSample's levels are set by its sub and not in `optional`.
const KINDS: [Kind; 22] = [
    kind(5, "access", 0, 2, &[]),
    kind(5, "access-storage-images", 1, 2, &[]),
    kind(5, "access-other-images", 2, 2, &[]),
    kind(5, "access-buffers", 3, 2, &[]),
    kind(6, "access-index", 0, 1, &[]),
    kind(7, "splat", 0, 1, &[]),
    kind(8, "derivative", 0, 1, &[]),
    kind(9, "binary", 0, 2, &[]),
    kind(10, "select", 0, 3, &[]),
    kind(11, "compose-0", 0, 0, &[]),
    kind(11, "compose-4", 0, 4, &[]),
    kind(12, "math", 0, 4, &[1, 2, 3]),
    kind(13, "sample-auto", 0, 8, &[3, 6, 7]),
    kind(13, "sample-zero", 1, 8, &[3, 6, 7]),
    kind(13, "sample-exact", 2, 8, &[3, 6, 7]),
    kind(13, "sample-bias", 3, 8, &[3, 6, 7]),
    kind(13, "sample-gradient", 4, 8, &[3, 6, 7]),
    kind(14, "load", 0, 5, &[2, 3, 4]),
    kind(15, "query", 0, 2, &[1]),
    kind(16, "array-length", 0, 1, &[]),
    kind(17, "cooperative-load", 0, 2, &[]),
    kind(18, "cooperative-multiply-add", 0, 3, &[]),
];

/// Expressions of [`leaves`] by what they are.
const GLOBAL: u16 = 0;
const LITERAL: u16 = 1;
const LOCAL: u16 = 2;

pub fn gather(list: &mut Gathered) {
    leaf_entries(list);
    for kind in &KINDS {
        let full = operands(kind);
        let name = format!("kind-{:02}-{}", kind.code, kind.name);
        list.module(&name, "all operands that may be there", &with(kind, &full));
        if kind.wants_handle() {
            let what = "the same, of a handle";
            list.module(format!("{name}-handle"), what, &of_handle(kind, &full));
        }
        if !kind.has_variants() {
            continue;
        }
        for &position in kind.optional {
            let mut operands = full.clone();
            operands[position] = ABSENT;
            let name = format!("{name}-without-{position}");
            list.module(&name, "this operand absent", &with(kind, &operands));
            if kind.wants_handle() {
                let what = "the same, of a handle";
                list.module(format!("{name}-handle"), what, &of_handle(kind, &operands));
            }
        }
        for position in 0..kind.count {
            // A cooperative load is from a pointer, which a local is too.
            if full[position] == LITERAL || kind.code == 17 {
                let mut operands = full.clone();
                operands[position] = LOCAL;
                let name = format!("{name}-local-{position}");
                list.module(name, "this operand a local", &with(kind, &operands));
            }
        }
    }
}

/// The full list of a kind's operands: images, samplers, bases and pointers are the global, all else the literal.
fn operands(kind: &Kind) -> Vec<u16> {
    let mut operands = vec![LITERAL; kind.count];
    match kind.code {
        5 | 6 | 14..=17 => operands[0] = GLOBAL,
        13 => {
            operands[..2].fill(GLOBAL);
            let levels = [0, 0, 1, 1, 2][usize::from(kind.sub)];
            operands[4 + levels..6].fill(ABSENT);
        }
        _ => {}
    }
    operands
}

/// One expression of a kind behind the leaves, emitted, with control flow checked.
fn with(kind: &Kind, operands: &[u16]) -> ModuleFile {
    let mut module = one(1, |sheet| {
        sheet.flag = 1;
        leaves(sheet);
        let place = sheet.expression(kind.code, kind.sub, 0, operands);
        sheet.emit(place, place + 1);
        sheet.statement(4, 0, &[place]);
    });
    module.capabilities = 15;
    module.spaces = vec![8];
    module
}

/// The same with the global in space Handle, which isn't uniform: the only space in which the release has images.
fn of_handle(kind: &Kind, operands: &[u16]) -> ModuleFile {
    ModuleFile {
        spaces: vec![10],
        ..with(kind, operands)
    }
}

fn leaves(sheet: &mut Sheet) {
    sheet.expression(2, 0, 0, &[]);
    sheet.expression(0, 0, 0, &[]);
    sheet.expression(3, 0, 0, &[]);
}

/// The kinds without operands, and arguments of each byte.
fn leaf_entries(list: &mut Gathered) {
    for (kind, name) in [(0, "literal"), (2, "global"), (3, "local")] {
        let module = one(1, |sheet| {
            sheet.expression(kind, 0, 0, &[]);
        });
        list.module(format!("kind-{kind:02}-{name}"), "alone", &module);
    }
    for byte in 0..4 {
        let module = one(0, |sheet| {
            sheet.arguments = vec![byte];
            sheet.expression(1, 0, 0, &[]);
        });
        let name = format!("kind-01-argument-{byte}");
        list.module(name, "an argument of this byte", &module);
    }
    list.module("kind-04-call-result", "of two functions", &call_results());
}

/// Function 0 returns a local after a barrier, function 1 a literal; function 2 has both results, no Call.
fn call_results() -> ModuleFile {
    let mut module = one(0, |sheet| {
        sheet.expression(0, 0, 0, &[]);
        sheet.expression(3, 0, 0, &[]);
        sheet.statement(3, 0, &[]);
        sheet.statement(4, 0, &[1]);
    });
    let mut literal = Sheet::default();
    literal.expression(0, 0, 0, &[]);
    literal.statement(4, 0, &[0]);
    let mut user = Sheet::default();
    user.expression(4, 0, 1, &[]);
    user.expression(4, 0, 0, &[]);
    user.expression(9, 0, 0, &[0, 1]);
    module.sheets.extend([literal, user]);
    module
}
