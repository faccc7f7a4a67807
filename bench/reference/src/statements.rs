//! Section 5: the walk through the statements, and the summary that comes out of it.

use crate::expressions::{Requirements, Use};
use crate::file::*;
use crate::form::direct_inside;
use crate::functions::Function;
use crate::Refusal;

/// What has made control flow non-uniform (01, 5.1).
#[derive(Clone, Copy, Debug, PartialEq, Eq)]
enum Disruptor {
    Expression(Expression),
    Return,
    Discard,
}

impl Disruptor {
    /// The cause, and its value, that refusal 11 names (01, 8.1).
    fn cause(self) -> (u8, u16) {
        match self {
            Disruptor::Expression(Expression(number)) => (1, number),
            Disruptor::Return => (2, 0),
            Disruptor::Discard => (3, 0),
        }
    }
}

/// What a statement, or a run of them, gives (01, 5.1).
#[derive(Clone, Copy, Debug, Default)]
pub struct Outcome {
    pub origin: Option<Expression>,
    pub requirements: Requirements,
    may_return: bool,
    pub may_kill: bool,
}

impl Outcome {
    /// Joins the outcome of what comes next in the table (01, 5.7).
    fn join(&mut self, next: Outcome) {
        self.origin = self.origin.or(next.origin);
        self.requirements.join(next.requirements);
        self.may_return |= next.may_return;
        self.may_kill |= next.may_kill;
    }

    /// The disruptor that is left behind (01, 5.6).
    fn exit(&self) -> Option<Disruptor> {
        if self.may_return {
            Some(Disruptor::Return)
        } else if self.may_kill {
            Some(Disruptor::Discard)
        } else {
            None
        }
    }
}

impl Function<'_> {
    /// Walks all statements; they start with no disruptor (01, 5.4 and 6.2).
    pub fn statements(&mut self) -> Result<Outcome, Refusal> {
        self.walk(0, self.sheet.statements.len(), None)
    }

    /// Walks the statements from one place up to another (01, 5.6 and 5.7).
    fn walk(
        &mut self,
        from: usize,
        to: usize,
        start: Option<Disruptor>,
    ) -> Result<Outcome, Refusal> {
        let mut joined = Outcome::default();
        let mut disruptor = start;
        let mut place = from;
        while place < to {
            let outcome = self.statement(place, disruptor)?;
            disruptor = disruptor.or(outcome.exit());
            joined.join(outcome);
            place = self.sheet.statements[place].end;
        }
        Ok(joined)
    }

    /// One statement with all that it holds (01, 5.2).
    fn statement(
        &mut self,
        place: usize,
        disruptor: Option<Disruptor>,
    ) -> Result<Outcome, Refusal> {
        let sheet = self.sheet;
        let record = &sheet.statements[place];
        let operands = sheet.pool_part(record.part);
        let nothing = Outcome::default();
        match record.kind {
            StatementKind::Emit => self.emit(record, disruptor),
            StatementKind::Break => Ok(nothing),
            StatementKind::Kill => Ok(Outcome {
                may_kill: disruptor.is_some(),
                ..nothing
            }),
            StatementKind::Barrier => Ok(Outcome {
                requirements: Requirements::BARRIER,
                ..nothing
            }),
            StatementKind::Return => Ok(Outcome {
                origin: self.read(operands),
                may_return: disruptor.is_some(),
                ..nothing
            }),
            StatementKind::Store => {
                self.store(operands);
                Ok(nothing)
            }
            StatementKind::Call => self.call(place, record, operands),
            StatementKind::Block | StatementKind::Arm => {
                self.walk(place + 1, record.end, disruptor)
            }
            StatementKind::If | StatementKind::Switch => {
                let condition = self.read(operands).map(Disruptor::Expression);
                self.arms(place, disruptor.or(condition))
            }
            StatementKind::Loop => {
                self.read(operands);
                self.arms(place, disruptor)
            }
        }
    }

    /// Every operand reads; the origin of the first that has one.
    fn read(&mut self, operands: &[Option<Expression>]) -> Option<Expression> {
        let mut origin = None;
        for operand in operands.iter().flatten() {
            let from_operand = self.refer(*operand, Use::READ);
            origin = origin.or(from_operand);
        }
        origin
    }

    /// The pointer marks WRITE, then the value READ.
    fn store(&mut self, operands: &[Option<Expression>]) {
        let uses = [Use::WRITE, Use::READ];
        for (operand, marked) in operands.iter().flatten().zip(uses) {
            self.refer(*operand, marked);
        }
    }

    /// Joins the requirements of the range; 11 at the first that can't stand the disruptor (01, 5.3).
    fn emit(
        &mut self,
        record: &StatementRecord,
        disruptor: Option<Disruptor>,
    ) -> Result<Outcome, Refusal> {
        let checked = disruptor.filter(|_| self.sheet.checks_control_flow);
        let mut outcome = Outcome::default();
        for place in record.emitted.clone() {
            let requirements = self.summary.expressions[place].requirements;
            if let Some(disruptor) = checked {
                if requirements.has_barrier_or_cooperative() {
                    let (cause, value) = disruptor.cause();
                    return Err(Refusal {
                        cause,
                        value,
                        ..Refusal::at(11, self.number, place)
                    });
                }
            }
            outcome.requirements.join(requirements);
        }
        Ok(outcome)
    }

    /// A Call: its arguments read, the callee's uses and pairs are taken (01, 4.6 and 5.2). A callee's
    /// may-return is its own matter.
    fn call(
        &mut self,
        place: usize,
        record: &StatementRecord,
        operands: &[Option<Expression>],
    ) -> Result<Outcome, Refusal> {
        let callee = &self.lower[usize::from(record.number)];
        self.read(operands);
        for (mine, &theirs) in self.summary.uses.iter_mut().zip(&callee.uses) {
            mine.join(theirs);
        }
        self.take_pairs(place, callee, operands)?;
        Ok(Outcome {
            may_return: false,
            ..callee.outcome
        })
    }

    /// The arms of an If, a Switch or a Loop, the first from `start`. After an arm that falls through, and
    /// after a Loop's body, the next starts from this arm's start, else its exit; after any other, from
    /// `start` again (01, 5.4 and 5.5).
    fn arms(&mut self, owner: usize, start: Option<Disruptor>) -> Result<Outcome, Refusal> {
        let sheet = self.sheet;
        let in_loop = sheet.statements[owner].kind == StatementKind::Loop;
        let mut joined = Outcome::default();
        let mut arm_start = start;
        for arm in direct_inside(&sheet.statements, owner) {
            let outcome = self.statement(arm, arm_start)?;
            arm_start = if in_loop || sheet.statements[arm].falls_through {
                arm_start.or(outcome.exit())
            } else {
                start
            };
            joined.join(outcome);
        }
        Ok(joined)
    }
}
