//! A function's statements, over all of its expressions.

use super::expressions::Builder;
use naga::{Barrier, Block, Expression, Handle, Range, Span, Statement, SwitchCase, SwitchValue};

/// How deep arms and blocks may lie within each other; well under 01's limit.
const DEPTH: usize = 5;

impl Builder<'_> {
    pub(super) fn body(&mut self) -> Block {
        let mut budget = self.random.between(0, self.temper.bounds.statements);
        let mut body = Block::new();
        while budget > 0 {
            let statement = self.statement(DEPTH, &mut budget);
            body.push(statement, Span::UNDEFINED);
        }
        body
    }

    /// A few statements, or none; `budget` is what the whole function may still have.
    fn block(&mut self, depth: usize, budget: &mut usize) -> Block {
        let mut block = Block::new();
        for _ in 0..self.random.below(4) {
            if *budget > 0 {
                let statement = self.statement(depth, budget);
                block.push(statement, Span::UNDEFINED);
            }
        }
        block
    }

    fn statement(&mut self, depth: usize, budget: &mut usize) -> Statement {
        *budget -= 1;
        match self.random.below(if depth > 0 { 24 } else { 15 }) {
            0..=3 => self.emit(),
            4 => Statement::Break,
            5 => Statement::Continue,
            6 => Statement::Kill,
            7 => Statement::ControlBarrier(Barrier::WORK_GROUP),
            8 => Statement::MemoryBarrier(Barrier::STORAGE),
            9 => Statement::Return {
                value: self.random.chance(70).then(|| self.any()),
            },
            10 | 11 => self.store(),
            12..=14 => self.call(),
            15 | 16 => Statement::Block(self.block(depth - 1, budget)),
            17..=19 => Statement::If {
                condition: self.any(),
                accept: self.block(depth - 1, budget),
                reject: self.block(depth - 1, budget),
            },
            20 | 21 => Statement::Switch {
                selector: self.any(),
                cases: self.cases(depth - 1, budget),
            },
            _ => Statement::Loop {
                body: self.block(depth - 1, budget),
                continuing: self.block(depth - 1, budget),
                break_if: self.random.chance(50).then(|| self.any()),
            },
        }
    }

    fn cases(&mut self, depth: usize, budget: &mut usize) -> Vec<SwitchCase> {
        (0..self.random.below(5))
            .map(|value| SwitchCase {
                value: SwitchValue::U32(value as u32),
                body: self.block(depth, budget),
                fall_through: self.random.chance(45),
            })
            .collect()
    }

    /// A short range, often of one that wants uniform flow. Empty ranges come too.
    fn emit(&mut self) -> Statement {
        let count = self.function.expressions.len();
        if self.random.chance(5) {
            return Statement::Emit(self.function.expressions.range_from(count));
        }
        let aimed = self.random.chance(40);
        let first = match self.random.pick(&self.requiring) {
            Some(&handle) if aimed => handle,
            _ => self.any(),
        };
        let last = (first.index() + self.random.below(3)).min(count - 1);
        let last = self.expression_at(last).unwrap_or(first);
        Statement::Emit(Range::new_from_bounds(first, last))
    }

    fn expression_at(&self, index: usize) -> Option<Handle<Expression>> {
        let mut expressions = self.function.expressions.iter();
        expressions.nth(index).map(|(handle, _)| handle)
    }

    fn store(&mut self) -> Statement {
        let value = self.any();
        let pointer = if !self.temper.entries {
            self.any()
        } else {
            // The first expression is a literal, which marks nothing.
            let harmless = self.expression_at(0).unwrap_or(value);
            self.random
                .pick(&self.writable)
                .copied()
                .unwrap_or(harmless)
        };
        Statement::Store { pointer, value }
    }

    /// A Call with an operand of the right class for each argument, its result dropped.
    fn call(&mut self) -> Statement {
        let callees = self.callees;
        let Some(callee) = self.random.pick(callees) else {
            return self.emit();
        };
        let arguments: Option<Vec<_>> = callee
            .signature
            .arguments
            .iter()
            .map(|&class| self.argument(class))
            .collect();
        let Some(mut arguments) = arguments else {
            return self.emit();
        };
        if self.temper.short_calls && self.random.chance(20) {
            arguments.pop();
        }
        Statement::Call {
            function: callee.handle,
            arguments,
            result: None,
        }
    }
}
