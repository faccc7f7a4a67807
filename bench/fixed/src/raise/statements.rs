//! The statement table (01, 5.2) as blocks.

use super::expressions::Expressions;
use files::{Sheet, Statement as Record};
use naga::{
    Arena, Barrier, Block, Expression, Handle, Literal, Module, Range, Span, Statement, SwitchCase,
    SwitchValue,
};

/// A function's body; nothing where the table is badly nested or names what isn't there.
pub fn body(module: &Module, sheet: &Sheet, expressions: &Expressions) -> Option<Block> {
    let table = Table {
        module,
        sheet,
        expressions,
    };
    table.block(0, sheet.statements.len())
}

struct Table<'a> {
    module: &'a Module,
    sheet: &'a Sheet,
    expressions: &'a Expressions,
}

impl Table<'_> {
    /// The statements from one place up to another.
    fn block(&self, from: usize, to: usize) -> Option<Block> {
        let mut block = Block::new();
        for (at, record) in self.directly(from, to)? {
            block.push(self.statement(at, record)?, Span::UNDEFINED);
        }
        Some(block)
    }

    /// The records from one place up to another that no other of them holds.
    fn directly(&self, from: usize, to: usize) -> Option<Vec<(usize, &Record)>> {
        let mut found = Vec::new();
        let mut at = from;
        while at < to {
            let record = self.sheet.statements.get(at)?;
            let end = usize::from(record.end);
            if end <= at || end > to {
                return None;
            }
            found.push((at, record));
            at = end;
        }
        Some(found)
    }

    fn statement(&self, at: usize, record: &Record) -> Option<Statement> {
        Some(match record.kind {
            0 => Statement::Emit(self.range(record)?),
            1 => Statement::Break,
            2 => Statement::Kill,
            3 => Statement::ControlBarrier(Barrier::WORK_GROUP),
            4 => Statement::Return {
                value: self.one_or_none(record)?,
            },
            5 => Statement::Store {
                pointer: *self.operands(record)?.first()?,
                value: *self.operands(record)?.get(1)?,
            },
            6 => Statement::Call {
                function: self
                    .module
                    .functions
                    .iter()
                    .nth(usize::from(record.number))?
                    .0,
                arguments: self.operands(record)?,
                result: None,
            },
            7 => Statement::Block(self.block(at + 1, usize::from(record.end))?),
            8 => {
                let [accept, reject] = self.two_arms(at, record)?;
                Statement::If {
                    condition: *self.operands(record)?.first()?,
                    accept,
                    reject,
                }
            }
            9 => Statement::Switch {
                selector: *self.operands(record)?.first()?,
                cases: self.arms(at, record)?,
            },
            10 => {
                let [body, continuing] = self.two_arms(at, record)?;
                Statement::Loop {
                    body,
                    continuing,
                    break_if: self.one_or_none(record)?,
                }
            }
            _ => return None,
        })
    }

    fn arms(&self, at: usize, record: &Record) -> Option<Vec<SwitchCase>> {
        self.directly(at + 1, usize::from(record.end))?
            .into_iter()
            .map(|(at, arm)| {
                Some(SwitchCase {
                    value: SwitchValue::Default,
                    body: self.block(at + 1, usize::from(arm.end))?,
                    fall_through: arm.sub == 1,
                })
            })
            .collect()
    }

    fn two_arms(&self, at: usize, record: &Record) -> Option<[Block; 2]> {
        let arms: Vec<Block> = self
            .arms(at, record)?
            .into_iter()
            .map(|arm| arm.body)
            .collect();
        arms.try_into().ok()
    }

    fn operands(&self, record: &Record) -> Option<Vec<Handle<Expression>>> {
        release::operands(self.sheet, record.first, record.count)
            .iter()
            .map(|&number| self.expressions.get(number))
            .collect()
    }

    fn one_or_none(&self, record: &Record) -> Option<Option<Handle<Expression>>> {
        Some(self.operands(record)?.first().copied())
    }

    fn range(&self, record: &Record) -> Option<Range<Expression>> {
        let (from, to) = (usize::from(record.number), usize::from(record.first));
        match self.expressions.all().get(from..to)? {
            [first, .., last] => Some(Range::new_from_bounds(*first, *last)),
            [only] => Some(Range::new_from_bounds(*only, *only)),
            [] => Some(empty_range(from)),
        }
    }
}

/// An empty range at a place: naga gives one only behind the last element of an arena.
fn empty_range(at: usize) -> Range<Expression> {
    let mut arena = Arena::new();
    for _ in 0..at {
        arena.append(Expression::Literal(Literal::U32(0)), Span::UNDEFINED);
    }
    arena.range_from(at)
}
