//! Modules of an exact shape: at a limit, one past it, or anywhere below.

use crate::{Expression, ModuleFile, Sheet, ABSENT};

/// The limits of document 01's parts, in the order of the sheet: arguments, expressions, operands,
/// statements, initialisers, named expressions.
pub const PART_LIMITS: [usize; 6] = [64, 2_048, 8_192, 1_024, 512, 512];

/// A module with this many globals in space 10, and these functions.
pub fn module(globals: usize, sheets: Vec<Sheet>) -> ModuleFile {
    ModuleFile {
        capabilities: 0,
        spaces: vec![10; globals],
        sheets,
    }
}

/// One function, made by `fill`, in a module with this many globals.
pub fn one(globals: usize, fill: impl FnOnce(&mut Sheet)) -> ModuleFile {
    let mut sheet = Sheet::default();
    fill(&mut sheet);
    module(globals, vec![sheet])
}

/// One function with this many records in one part (numbered as in [`PART_LIMITS`]), all as simple as may be.
pub fn part_of(part: usize, count: usize) -> ModuleFile {
    one(0, |sheet| {
        sheet.expression(0, 0, 0, &[]);
        match part {
            0 => sheet.arguments = vec![0; count],
            1 => sheet.expressions = vec![Expression::default(); count],
            2 => sheet.operands = vec![0; count],
            3 => {
                for _ in 0..count {
                    sheet.statement(1, 0, &[]);
                }
            }
            4 => sheet.initialisers = vec![0; count],
            _ => sheet.named = vec![0; count],
        }
    })
}

/// One function whose last statement, a Break, stands inside `around` others: Blocks, and Arms of Switches.
pub fn deep(around: usize) -> ModuleFile {
    one(0, |sheet| {
        sheet.expression(0, 0, 0, &[]);
        let mut opened = Vec::new();
        while opened.len() + 2 <= around {
            opened.push(sheet.open(9, 0, &[0]));
            opened.push(sheet.open(11, 0, &[]));
        }
        if opened.len() < around {
            opened.push(sheet.open(7, 0, &[]));
        }
        sheet.statement(1, 0, &[]);
        for &at in opened.iter().rev() {
            sheet.close(at);
        }
    })
}

/// The operands of a sampling with the level Zero.
pub fn zero_level(image: u16, sampler: u16, coordinate: u16) -> [u16; 8] {
    let a = ABSENT;
    [image, sampler, coordinate, a, a, a, a, a]
}

/// The numbers `0..side` of images against the numbers `0..side` of samplers, in order.
fn numbered_pairs(count: usize) -> impl Iterator<Item = (u16, u16)> {
    let side = PAIR_SIDE as u16;
    (0..count as u16).map(move |i| (i / side, i % side))
}

/// With this many images and as many samplers there are more than 256 pairs.
const PAIR_SIDE: usize = 17;

/// One function with exactly this many pairs (at most 289), each from a sampling of its own.
pub fn pairs(count: usize) -> ModuleFile {
    one(PAIR_SIDE, |sheet| {
        leaves(sheet, 2, PAIR_SIDE);
        for (image, sampler) in numbered_pairs(count) {
            sheet.expression(13, 1, 0, &zero_level(image, sampler, 0));
        }
    })
}

/// One function with exactly this many mixed pairs (at most 289), of arguments with globals.
pub fn mixed(count: usize) -> ModuleFile {
    one(PAIR_SIDE, |sheet| {
        sheet.arguments = vec![0; PAIR_SIDE];
        leaves(sheet, 1, PAIR_SIDE);
        leaves(sheet, 2, PAIR_SIDE);
        for (image, sampler) in numbered_pairs(count) {
            let sampler = sampler + PAIR_SIDE as u16;
            sheet.expression(13, 1, 0, &zero_level(image, sampler, 0));
        }
    })
}

/// Adds expressions of this kind numbered `0..count`.
fn leaves(sheet: &mut Sheet, kind: u8, count: usize) {
    for number in 0..count as u16 {
        sheet.expression(kind, 0, number, &[]);
    }
}

/// Function 0 samples its argument with each of `samplers` globals; function 1 calls it once with each of
/// `images` globals. So function 1 has `images * samplers` pairs. Where `mixed` is set it passes arguments
/// of its own on, so that they are mixed pairs.
pub fn called(images: usize, samplers: usize, mixed: bool) -> ModuleFile {
    let mut callee = Sheet {
        arguments: vec![0],
        ..Sheet::default()
    };
    callee.expression(1, 0, 0, &[]);
    leaves(&mut callee, 2, samplers);
    for sampler in 1..=samplers as u16 {
        callee.expression(13, 1, 0, &zero_level(0, sampler, 0));
    }
    let mut caller = Sheet::default();
    if mixed {
        caller.arguments = vec![0; images];
    }
    leaves(&mut caller, if mixed { 1 } else { 2 }, images);
    for image in 0..images as u16 {
        caller.statement(6, 0, &[image]);
    }
    module(images.max(samplers), vec![callee, caller])
}

/// A module that has at least as many pairs as that of [`called`] in each of `functions` further functions,
/// which do no more than call function 1: a long report on a short file.
pub fn repeated(images: usize, samplers: usize, functions: usize) -> ModuleFile {
    let mut module = called(images, samplers, false);
    for _ in 0..functions {
        let mut sheet = Sheet::default();
        sheet.statement(6, 1, &[]);
        module.sheets.push(sheet);
    }
    module
}

/// A module whose report has exactly this many bytes (from some hundreds to 65,537): `9 + k (10 + g) + 9 n`
/// with k functions, g globals and n literals in all.
pub fn report_of(length: usize) -> ModuleFile {
    let fits = |&(functions, globals): &(usize, usize)| {
        let rest = length.checked_sub(9 + functions * (10 + globals));
        rest.is_some_and(|rest| rest % 9 == 0 && rest / 9 <= functions * PART_LIMITS[1])
    };
    let shape = (1..=64).flat_map(|functions| (0..9).map(move |globals| (functions, globals)));
    let (functions, globals) = shape.into_iter().find(fits).expect("a length in range");
    let mut left = (length - 9 - functions * (10 + globals)) / 9;
    let mut sheets = Vec::new();
    for _ in 0..functions {
        let count = left.min(PART_LIMITS[1]);
        left -= count;
        sheets.push(Sheet {
            expressions: vec![Expression::default(); count],
            ..Sheet::default()
        });
    }
    module(globals, sheets)
}

/// A module of some kilobytes whose report has exactly this many bytes, near the limit: the functions of
/// [`repeated`], with globals and literals added until the length is right.
pub fn long_report_of(length: usize) -> ModuleFile {
    let side = 16;
    let callee = 10 + 6 * side + 9 * (1 + 2 * side);
    let caller = 10 + 4 * side * side + 9 * side;
    let repeat = 10 + 4 * side * side;
    let shapes = (1..=62usize)
        .rev()
        .flat_map(|repeats| (side..side + 9).map(move |globals| (repeats, globals)));
    let without_literals = |repeats: usize, globals: usize| {
        9 + callee + caller + repeats * repeat + (repeats + 2) * globals
    };
    let fits = |&(repeats, globals): &(usize, usize)| {
        let rest = length.checked_sub(without_literals(repeats, globals));
        rest.is_some_and(|rest| rest % 9 == 0 && rest <= 9 * PART_LIMITS[1])
    };
    let (repeats, globals) = shapes
        .into_iter()
        .find(fits)
        .expect("a length near the limit");
    let mut module = repeated(side, side, repeats);
    module.spaces = vec![10; globals];
    let literals = (length - without_literals(repeats, globals)) / 9;
    let last = &mut module.sheets[repeats + 1];
    last.expressions = vec![Expression::default(); literals];
    module
}

/// A file of exactly this many bytes (27 or more): pools that no record uses, and globals to fill up.
pub fn file_of(length: usize) -> ModuleFile {
    let mut left = length - 10;
    let mut sheets = Vec::new();
    while left >= 17 {
        let operands = ((left - 17) / 2).min(PART_LIMITS[2]);
        left -= 17 + 2 * operands;
        sheets.push(Sheet {
            operands: vec![ABSENT; operands],
            ..Sheet::default()
        });
    }
    module(left, sheets)
}

#[cfg(test)]
mod tests {
    use super::*;

    #[test]
    fn files_have_the_length_asked_for() {
        for length in [
            27, 28, 29, 43, 44, 45, 1_000, 40_001, 65_535, 65_536, 65_537,
        ] {
            assert_eq!(file_of(length).encode().len(), length);
        }
    }
}
