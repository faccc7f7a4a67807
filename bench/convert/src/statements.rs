//! Statement records, in preorder with their extents (01, 2.8 and 5.2).

use crate::number;
use files::Sheet;
use naga::{Block, Expression, Handle, Statement as S, SwitchCase};

const BREAK_OR_CONTINUE: u8 = 1;
const KILL: u8 = 2;
const BARRIER: u8 = 3;
const RETURN: u8 = 4;
const STORE: u8 = 5;
const CALL: u8 = 6;
const BLOCK: u8 = 7;
const IF: u8 = 8;
const SWITCH: u8 = 9;
const LOOP: u8 = 10;
const ARM: u8 = 11;

/// The name of a statement that 01 has no kind for.
type Unsupported = &'static str;

/// Adds the records of a block's statements, each with all that it holds.
pub fn add_block(sheet: &mut Sheet, block: &Block) -> Result<(), Unsupported> {
    block.iter().try_for_each(|statement| add(sheet, statement))
}

fn add(sheet: &mut Sheet, statement: &S) -> Result<(), Unsupported> {
    match *statement {
        S::Emit(ref range) => {
            let range = range.index_range();
            sheet.emit(range.start as u16, range.end as u16);
        }
        S::Break | S::Continue => leaf(sheet, BREAK_OR_CONTINUE, 0, &[]),
        S::Kill => leaf(sheet, KILL, 0, &[]),
        S::ControlBarrier(_) | S::MemoryBarrier(_) => leaf(sheet, BARRIER, 0, &[]),
        S::Return { value } => leaf(sheet, RETURN, 0, &one_or_none(value)),
        S::Store { pointer, value } => leaf(sheet, STORE, 0, &[number(pointer), number(value)]),
        S::Call {
            function,
            ref arguments,
            ..
        } => {
            let operands: Vec<u16> = arguments.iter().copied().map(number).collect();
            leaf(sheet, CALL, number(function), &operands);
        }
        S::Block(ref block) => holding(sheet, BLOCK, 0, &[], |sheet| add_block(sheet, block))?,
        S::If {
            condition,
            ref accept,
            ref reject,
        } => holding(sheet, IF, 0, &[number(condition)], |sheet| {
            add_arm(sheet, accept, false)?;
            add_arm(sheet, reject, false)
        })?,
        S::Switch {
            selector,
            ref cases,
        } => holding(sheet, SWITCH, 0, &[number(selector)], |sheet| {
            cases.iter().try_for_each(|case| add_case(sheet, case))
        })?,
        S::Loop {
            ref body,
            ref continuing,
            break_if,
        } => holding(sheet, LOOP, 0, &one_or_none(break_if), |sheet| {
            add_arm(sheet, body, false)?;
            add_arm(sheet, continuing, false)
        })?,
        S::ImageStore { .. } => return Err("ImageStore"),
        S::Atomic { .. } => return Err("Atomic"),
        S::ImageAtomic { .. } => return Err("ImageAtomic"),
        S::WorkGroupUniformLoad { .. } => return Err("WorkGroupUniformLoad"),
        S::RayQuery { .. } => return Err("RayQuery"),
        S::RayPipelineFunction(_) => return Err("RayPipelineFunction"),
        S::SubgroupBallot { .. } => return Err("SubgroupBallot"),
        S::SubgroupGather { .. } => return Err("SubgroupGather"),
        S::SubgroupCollectiveOperation { .. } => return Err("SubgroupCollectiveOperation"),
        S::CooperativeStore { .. } => return Err("CooperativeStore"),
    }
    Ok(())
}

fn leaf(sheet: &mut Sheet, kind: u8, number: u16, operands: &[u16]) {
    sheet.statement(kind, number, operands);
}

/// Adds a statement and, inside it, what `inside` adds.
fn holding(
    sheet: &mut Sheet,
    kind: u8,
    sub: u8,
    operands: &[u16],
    inside: impl FnOnce(&mut Sheet) -> Result<(), Unsupported>,
) -> Result<(), Unsupported> {
    let opened = sheet.open(kind, sub, operands);
    inside(sheet)?;
    sheet.close(opened);
    Ok(())
}

fn add_arm(sheet: &mut Sheet, block: &Block, falls_through: bool) -> Result<(), Unsupported> {
    holding(sheet, ARM, u8::from(falls_through), &[], |sheet| {
        add_block(sheet, block)
    })
}

fn add_case(sheet: &mut Sheet, case: &SwitchCase) -> Result<(), Unsupported> {
    add_arm(sheet, &case.body, case.fall_through)
}

fn one_or_none(operand: Option<Handle<Expression>>) -> Vec<u16> {
    operand.map(number).into_iter().collect()
}
