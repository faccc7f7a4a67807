//! Section 3 and the table of 4.1: what becomes known of an expression.

use crate::file::*;
use crate::functions::Function;
use crate::Refusal;

/// What an operand does to the expression that it names (01, 3.3).
#[derive(Clone, Copy, Debug, PartialEq, Eq)]
pub enum Role {
    Read,
    Query,
    Carry,
}

/// Whether an operand has to be there (01, 4.1 and 4.2).
#[derive(Clone, Copy, Debug, PartialEq, Eq)]
pub enum Presence {
    Needed,
    Optional,
    Unwanted,
}

/// Whether ImageSample's two levels are there, by its sub (01, 4.2).
mod level {
    pub const AUTO: u8 = 0;
    pub const EXACT: u8 = 2;
    pub const BIAS: u8 = 3;
    pub const GRADIENT: u8 = 4;
}

/// What the base of an Access is, by its sub (01, 4.1).
mod base {
    pub const NO_BINDING_ARRAY: u8 = 0;
    pub const STORAGE_IMAGES: u8 = 1;
    pub const OTHER_IMAGES_OR_SAMPLERS: u8 = 2;
}

/// How many operands the full list of a kind has; `None` where any number will do (01, 4.1).
pub fn operand_count(kind: ExpressionKind) -> Option<usize> {
    use ExpressionKind::*;
    match kind {
        Literal | FunctionArgument | GlobalVariable | LocalVariable | CallResult => Some(0),
        AccessIndex | Splat | Derivative | ArrayLength => Some(1),
        Access | Binary | ImageQuery | CooperativeLoad => Some(2),
        Select | CooperativeMultiplyAdd => Some(3),
        Math => Some(4),
        ImageLoad => Some(5),
        ImageSample => Some(8),
        Compose => None,
    }
}

/// What the operand at this position of a kind's list does (01, 4.1).
pub fn role(kind: ExpressionKind, position: usize) -> Role {
    use ExpressionKind::*;
    match (kind, position) {
        (Access | AccessIndex, 0) => Role::Carry,
        (ImageQuery | ArrayLength, 0) => Role::Query,
        _ => Role::Read,
    }
}

/// Whether the operand at this position of a kind's list has to be there (01, 4.1 and 4.2).
pub fn presence(kind: ExpressionKind, sub: u8, position: usize) -> Presence {
    use ExpressionKind::*;
    match (kind, position) {
        (ImageSample, 4) => wanted(matches!(sub, level::EXACT | level::BIAS | level::GRADIENT)),
        (ImageSample, 5) => wanted(sub == level::GRADIENT),
        (ImageSample, 3 | 6 | 7) => Presence::Optional,
        (Math, 1..) | (ImageLoad, 2..) | (ImageQuery, 1) => Presence::Optional,
        _ => Presence::Needed,
    }
}

fn wanted(condition: bool) -> Presence {
    if condition {
        Presence::Needed
    } else {
        Presence::Unwanted
    }
}

/// What a function does with a global, a mask (01, 7.3). No kind of version 1 marks ATOMIC.
#[derive(Clone, Copy, Debug, Default, PartialEq, Eq)]
pub struct Use(pub u8);

impl Use {
    pub const READ: Use = Use(1);
    pub const WRITE: Use = Use(2);
    pub const QUERY: Use = Use(4);

    pub fn is_empty(self) -> bool {
        self.0 == 0
    }

    pub fn join(&mut self, other: Use) {
        self.0 |= other.0;
    }
}

/// What control flow an expression or a function requires to be uniform for, a mask (01, 3.6).
#[derive(Clone, Copy, Debug, Default, PartialEq, Eq)]
pub struct Requirements(pub u8);

impl Requirements {
    pub const NONE: Requirements = Requirements(0);
    pub const BARRIER: Requirements = Requirements(1);
    pub const DERIVATIVE: Requirements = Requirements(2);
    pub const IMPLICIT_LEVEL: Requirements = Requirements(4);
    pub const COOPERATIVE: Requirements = Requirements(8);

    pub fn join(&mut self, other: Requirements) {
        self.0 |= other.0;
    }

    /// Whether emitting it under a disruptor is refusal 11 (01, 5.3).
    pub fn has_barrier_or_cooperative(self) -> bool {
        self.0 & (Self::BARRIER.0 | Self::COOPERATIVE.0) != 0
    }
}

/// What is known of an expression (01, 3.1).
#[derive(Clone, Copy, Debug, Default)]
pub struct ExpressionInfo {
    pub origin: Option<Expression>,
    pub requirements: Requirements,
    pub references: u32,
    pub assignable: Option<Global>,
}

impl Function<'_> {
    /// Takes the next expression (01, 3).
    pub fn expression(&mut self, place: usize) -> Result<(), Refusal> {
        let record = self.sheet.expressions[place];
        match record.kind {
            ExpressionKind::ImageSample => self.sample(place, record)?,
            ExpressionKind::Access => self.check_access(place, record)?,
            _ => {}
        }
        let mut assignable =
            (record.kind == ExpressionKind::GlobalVariable).then_some(Global(record.number));
        let from_operands = self.operands(record, &mut assignable);
        let info = ExpressionInfo {
            origin: self.own_origin(place, record).or(from_operands),
            requirements: self.requirements_of(record),
            references: 0,
            assignable,
        };
        self.summary.expressions.push(info);
        Ok(())
    }

    /// Counts and marks every present operand; the origin of the first that has one (01, 3.2 to 3.5).
    fn operands(
        &mut self,
        record: ExpressionRecord,
        assignable: &mut Option<Global>,
    ) -> Option<Expression> {
        let mut origin = None;
        let part = self.sheet.pool_part(record.part);
        for (position, operand) in part.iter().enumerate() {
            let &Some(operand) = operand else { continue };
            let from_operand = match role(record.kind, position) {
                Role::Read => self.refer(operand, Use::READ),
                Role::Query => self.refer(operand, Use::QUERY),
                Role::Carry => self.carry(operand, assignable),
            };
            origin = origin.or(from_operand);
        }
        origin
    }

    /// An operand that reads, queries or writes: one reference more, and the use is marked on its
    /// assignable global, if it has one. Answers its origin (01, 3.2 and 3.3).
    pub fn refer(&mut self, target: Expression, marked: Use) -> Option<Expression> {
        let info = &mut self.summary.expressions[target.index()];
        info.references += 1;
        if let Some(global) = info.assignable {
            self.summary.uses[usize::from(global.0)].join(marked);
        }
        info.origin
    }

    /// An operand that carries: one reference more, and its assignable global is handed to the record
    /// that it stands in (01, 3.3). No record is handed two (01, 3.4).
    fn carry(&mut self, target: Expression, carried: &mut Option<Global>) -> Option<Expression> {
        let info = &mut self.summary.expressions[target.index()];
        info.references += 1;
        *carried = info.assignable.or(*carried);
        info.origin
    }

    /// The origin that a record without operands has of itself (01, 3.5).
    fn own_origin(&self, place: usize, record: ExpressionRecord) -> Option<Expression> {
        let number = usize::from(record.number);
        let non_uniform = match record.kind {
            ExpressionKind::LocalVariable => true,
            ExpressionKind::FunctionArgument => self.sheet.arguments[number] == 0,
            ExpressionKind::GlobalVariable => !self.module.spaces[number].is_uniform(),
            ExpressionKind::CallResult => return self.lower[number].outcome.origin,
            _ => false,
        };
        non_uniform.then_some(Expression(place as u16))
    }

    /// A record's requirements; those of its operands are not among them (01, 3.6).
    fn requirements_of(&self, record: ExpressionRecord) -> Requirements {
        match record.kind {
            ExpressionKind::CallResult => {
                self.lower[usize::from(record.number)].outcome.requirements
            }
            ExpressionKind::Derivative => Requirements::DERIVATIVE,
            ExpressionKind::ImageSample if matches!(record.sub, level::AUTO | level::BIAS) => {
                Requirements::IMPLICIT_LEVEL
            }
            ExpressionKind::CooperativeLoad | ExpressionKind::CooperativeMultiplyAdd => {
                Requirements::COOPERATIVE
            }
            _ => Requirements::NONE,
        }
    }

    /// 8 and 9 of an Access to a binding array (01, 3.7).
    fn check_access(&self, place: usize, record: ExpressionRecord) -> Result<(), Refusal> {
        if record.sub == base::NO_BINDING_ARRAY {
            return Ok(());
        }
        let [Some(base), Some(index)] = *self.sheet.pool_part(record.part) else {
            unreachable!("both operands of an Access are there");
        };
        let needed =
            self.needed_capability(record.sub, base)
                .ok_or(Refusal::at(8, self.number, place))?;
        let index_varies = self.summary.expressions[index.index()].origin.is_some();
        if index_varies && self.module.capabilities & needed == 0 {
            return Err(Refusal::at(9, self.number, place));
        }
        Ok(())
    }

    /// The capability that a non-uniform index into this base asks for; `None` where the base is of
    /// sub 3 and isn't a global in Uniform or Storage (01, 3.7).
    fn needed_capability(&self, sub: u8, base: Expression) -> Option<u8> {
        match sub {
            base::STORAGE_IMAGES => Some(capability::STORAGE_IMAGES),
            base::OTHER_IMAGES_OR_SAMPLERS => Some(capability::SAMPLED_IMAGES_AND_SAMPLERS),
            _ => {
                let space = self.module.space(self.as_global(base)?);
                if space.is_uniform_buffer() {
                    Some(capability::UNIFORM_BUFFERS)
                } else if space.is_storage() {
                    Some(capability::STORAGE_BUFFERS)
                } else {
                    None
                }
            }
        }
    }

    /// The global that an expression directly is, if it is of kind 2.
    pub fn as_global(&self, expression: Expression) -> Option<Global> {
        let record = self.sheet.expressions[expression.index()];
        (record.kind == ExpressionKind::GlobalVariable).then_some(Global(record.number))
    }
}
