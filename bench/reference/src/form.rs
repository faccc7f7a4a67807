//! Section 2: what is checked before any rule, and in which order.
//!
//! A check of one record answers the refusal's number alone; the walk over the records adds the
//! function and the place.

use crate::expressions::{operand_count, presence, Presence};
use crate::file::*;
use crate::Refusal;

/// A refusal's number.
type Number = u8;

const ABSENT: u16 = 65_535;

/// The module that stands in the file, or the first refusal of its form.
pub fn check(file: &[u8]) -> Result<Module, Refusal> {
    let mut reader = outer(file)?;
    let capabilities = reader.u8();
    let globals = usize::from(reader.u16());
    let functions = usize::from(reader.u16());
    if globals > MOST_GLOBALS || functions > MOST_FUNCTIONS {
        return Err(Refusal::at(3, 0, 0));
    }
    if reader.left() < globals {
        return Err(Refusal::at(2, 0, 0));
    }
    if capabilities & !capability::ALL != 0 {
        return Err(Refusal::at(4, 0, 0));
    }
    let spaces = spaces(reader.bytes(globals))?;
    let sheets = sheets(&mut reader, functions, globals)?;
    if reader.left() != 0 {
        return Err(Refusal::at(2, functions, 0));
    }
    Ok(Module {
        capabilities,
        spaces,
        sheets,
    })
}

/// What stands behind the version byte, where lengths and version are right (01, 2.1).
fn outer(file: &[u8]) -> Result<Reader<'_>, Refusal> {
    let wrong = Refusal::at(2, 0, 0);
    if file.len() < HEADER_BYTES || file.len() > MOST_FILE_BYTES {
        return Err(wrong);
    }
    let mut reader = Reader::new(file);
    let length = reader.u32() as usize;
    let version = reader.u8();
    if length != file.len() - 4 || version != VERSION {
        return Err(wrong);
    }
    Ok(reader)
}

/// The spaces, with 4 at the first unknown one (01, 2.4).
fn spaces(bytes: &[u8]) -> Result<Vec<Space>, Refusal> {
    let mut spaces = Vec::with_capacity(bytes.len());
    for (global, &code) in bytes.iter().enumerate() {
        spaces.push(Space::from_code(code).ok_or(Refusal::at(4, 0, global))?);
    }
    Ok(spaces)
}

/// Every sheet's form in turn (01, 2.5).
fn sheets(
    reader: &mut Reader<'_>,
    functions: usize,
    globals: usize,
) -> Result<Vec<Sheet>, Refusal> {
    let mut sheets = Vec::with_capacity(functions);
    for function in 0..functions {
        let raw = RawSheet::split(reader, function)?;
        let surroundings = Surroundings {
            function,
            globals,
            lower: &sheets,
        };
        let sheet = surroundings.sheet(&raw)?;
        sheets.push(sheet);
    }
    Ok(sheets)
}

/// A sheet whose lengths are right, its parts not yet looked at.
struct RawSheet<'a> {
    flag: u8,
    parts: [&'a [u8]; 6],
}

impl<'a> RawSheet<'a> {
    /// Steps 1 to 3 of 2.5.
    fn split(reader: &mut Reader<'a>, function: usize) -> Result<Self, Refusal> {
        if reader.left() < SHEET_HEADER_BYTES {
            return Err(Refusal::at(2, function, 0));
        }
        let length = reader.u32() as usize;
        let flag = reader.u8();
        let counts: [usize; 6] = std::array::from_fn(|_| usize::from(reader.u16()));
        if counts
            .iter()
            .zip(&PARTS)
            .any(|(&count, part)| count > part.limit)
        {
            return Err(Refusal::at(3, function, 0));
        }
        let sizes: [usize; 6] = std::array::from_fn(|i| counts[i] * PARTS[i].record_bytes);
        let parts_bytes: usize = sizes.iter().sum();
        if length != SHEET_HEADER_BYTES - 4 + parts_bytes || parts_bytes > reader.left() {
            return Err(Refusal::at(2, function, 0));
        }
        Ok(RawSheet {
            flag,
            parts: sizes.map(|size| reader.bytes(size)),
        })
    }
}

/// What a sheet's checks need to know of the module around it.
struct Surroundings<'a> {
    function: usize,
    globals: usize,
    /// The sheets of the lower functions, the only ones that may be called.
    lower: &'a [Sheet],
}

impl Surroundings<'_> {
    /// Steps 4 to 9 of 2.5.
    fn sheet(&self, raw: &RawSheet<'_>) -> Result<Sheet, Refusal> {
        if raw.flag > 1 {
            return Err(Refusal::at(4, self.function, 0));
        }
        let [arguments, expressions, operands, statements, initialisers, named] = raw.parts;
        self.arguments(arguments)?;
        let operands: Vec<u16> = numbers(operands);
        let expressions = self.expressions(expressions, &operands, arguments.len())?;
        let statements = self.statements(statements, &operands, expressions.len())?;
        let initialisers = self.list(initialisers, expressions.len())?;
        let named = self.list(named, expressions.len())?;
        Ok(Sheet {
            checks_control_flow: raw.flag == 1,
            arguments: arguments.to_vec(),
            expressions,
            operands: operands.into_iter().map(present).collect(),
            statements,
            initialisers,
            named,
        })
    }

    /// 4 at the first unknown argument byte.
    fn arguments(&self, bytes: &[u8]) -> Result<(), Refusal> {
        match bytes.iter().position(|&byte| byte > 3) {
            Some(place) => Err(Refusal::at(4, self.function, place)),
            None => Ok(()),
        }
    }

    /// Each expression in turn, by 2.6.
    fn expressions(
        &self,
        bytes: &[u8],
        operands: &[u16],
        arguments: usize,
    ) -> Result<Vec<ExpressionRecord>, Refusal> {
        let mut records = Vec::with_capacity(bytes.len() / 8);
        for (place, bytes) in bytes.chunks_exact(8).enumerate() {
            let record = self
                .expression(RawExpression::read(bytes), place, operands, arguments)
                .map_err(|number| Refusal::at(number, self.function, place))?;
            records.push(record);
        }
        Ok(records)
    }

    /// One expression: 4, then 5, then 6 (01, 2.6).
    fn expression(
        &self,
        raw: RawExpression,
        place: usize,
        operands: &[u16],
        arguments: usize,
    ) -> Result<ExpressionRecord, Number> {
        let kind = ExpressionKind::from_code(raw.kind).ok_or(4)?;
        refuse(!kind.has_sub(raw.sub), 4)?;

        let count = usize::from(raw.count);
        let part = in_pool(operands, raw.first, raw.count);
        refuse(operand_count(kind).is_some_and(|full| full != count), 5)?;
        refuse(raw.number != 0 && !kind.uses_number(), 5)?;
        refuse(raw.first != 0 && count == 0, 5)?;
        refuse(
            part.is_some_and(|part| wrong_absence(kind, raw.sub, part)),
            5,
        )?;

        let part = part.ok_or(6)?;
        refuse(
            part.iter().any(|&x| x != ABSENT && usize::from(x) >= place),
            6,
        )?;
        let numbered = match kind {
            ExpressionKind::FunctionArgument => arguments,
            ExpressionKind::GlobalVariable => self.globals,
            ExpressionKind::CallResult => self.function,
            _ => usize::MAX,
        };
        refuse(usize::from(raw.number) >= numbered, 6)?;

        Ok(ExpressionRecord {
            kind,
            sub: raw.sub,
            number: raw.number,
            part: PoolPart {
                first: usize::from(raw.first),
                count,
            },
        })
    }

    /// Each statement in turn, by 2.7; then the number of arms.
    fn statements(
        &self,
        bytes: &[u8],
        operands: &[u16],
        expressions: usize,
    ) -> Result<Vec<StatementRecord>, Refusal> {
        let mut records = Vec::with_capacity(bytes.len() / 10);
        let mut nesting = Nesting::new(bytes.len() / 10);
        for (place, bytes) in bytes.chunks_exact(10).enumerate() {
            let raw = RawStatement::read(bytes);
            nesting.come_to(place);
            let record = self
                .statement(&raw, place, &nesting, operands, expressions)
                .map_err(|number| Refusal::at(number, self.function, place))?;
            nesting.enter(&record);
            records.push(record);
        }
        match wrong_arms(&records) {
            Some(place) => Err(Refusal::at(5, self.function, place)),
            None => Ok(records),
        }
    }

    /// One statement: 4, then 5, 6, 15 and 10 (01, 2.7).
    fn statement(
        &self,
        raw: &RawStatement,
        place: usize,
        nesting: &Nesting,
        operands: &[u16],
        expressions: usize,
    ) -> Result<StatementRecord, Number> {
        let kind = StatementKind::from_code(raw.kind).ok_or(4)?;
        refuse(!kind.has_sub(raw.sub), 4)?;

        let count = usize::from(raw.count);
        let is_emit = kind == StatementKind::Emit;
        // The `first` of an Emit is its range's end and no place in the pool (01, 1.9).
        let first = if is_emit { 0 } else { raw.first };
        let part = in_pool(operands, first, raw.count);
        refuse(!kind.takes(count), 5)?;
        refuse(raw.number != 0 && !kind.uses_number(), 5)?;
        refuse(first != 0 && count == 0, 5)?;
        refuse(part.is_some_and(|part| part.contains(&ABSENT)), 5)?;
        refuse(
            nesting.is_bad(kind, raw.sub, place, usize::from(raw.end)),
            5,
        )?;

        let part = part.ok_or(6)?;
        refuse(part.iter().any(|&x| usize::from(x) >= expressions), 6)?;
        let emitted = if is_emit {
            usize::from(raw.number)..usize::from(raw.first)
        } else {
            0..0
        };
        refuse(emitted.start > emitted.end || emitted.end > expressions, 6)?;
        let is_call = kind == StatementKind::Call;
        refuse(is_call && usize::from(raw.number) >= self.function, 6)?;

        refuse(nesting.depth() > MOST_AROUND, 15)?;
        refuse(
            is_call && count != self.lower[usize::from(raw.number)].arguments.len(),
            10,
        )?;

        Ok(StatementRecord {
            kind,
            falls_through: raw.sub == 1,
            number: raw.number,
            end: usize::from(raw.end),
            part: PoolPart {
                first: usize::from(first),
                count,
            },
            emitted,
        })
    }

    /// The initialisers, or the named expressions: 5 where absent, 6 where no expression.
    fn list(&self, bytes: &[u8], expressions: usize) -> Result<Vec<Expression>, Refusal> {
        let mut list = Vec::with_capacity(bytes.len() / 2);
        for (place, number) in numbers(bytes).into_iter().enumerate() {
            let expression = present(number).ok_or(Refusal::at(5, self.function, place))?;
            if expression.index() >= expressions {
                return Err(Refusal::at(6, self.function, place));
            }
            list.push(expression);
        }
        Ok(list)
    }
}

/// An expression record as it lies in the file (01, 1.5).
struct RawExpression {
    kind: u8,
    sub: u8,
    number: u16,
    first: u16,
    count: u16,
}

impl RawExpression {
    fn read(bytes: &[u8]) -> Self {
        let mut reader = Reader::new(bytes);
        RawExpression {
            kind: reader.u8(),
            sub: reader.u8(),
            number: reader.u16(),
            first: reader.u16(),
            count: reader.u16(),
        }
    }
}

/// A statement record as it lies in the file (01, 1.6).
struct RawStatement {
    kind: u8,
    sub: u8,
    number: u16,
    end: u16,
    first: u16,
    count: u16,
}

impl RawStatement {
    fn read(bytes: &[u8]) -> Self {
        let mut reader = Reader::new(bytes);
        RawStatement {
            kind: reader.u8(),
            sub: reader.u8(),
            number: reader.u16(),
            end: reader.u16(),
            first: reader.u16(),
            count: reader.u16(),
        }
    }
}

/// The statements around the place that a walk through the table has come to (01, 2.8).
struct Nesting {
    /// How many statements the table has.
    table: usize,
    /// The statements that are still open, each with its end; the last is the owner.
    open: Vec<(StatementKind, usize)>,
}

impl Nesting {
    fn new(table: usize) -> Self {
        Nesting {
            table,
            open: Vec::new(),
        }
    }

    /// Closes the statements that end before this place.
    fn come_to(&mut self, place: usize) {
        while self.open.last().is_some_and(|&(_, end)| end <= place) {
            self.open.pop();
        }
    }

    /// Opens a statement that has passed.
    fn enter(&mut self, record: &StatementRecord) {
        self.open.push((record.kind, record.end));
    }

    /// How many statements are around (01, 2.9).
    fn depth(&self) -> usize {
        self.open.len()
    }

    /// Whether a statement at this place would be badly nested (01, 2.8).
    fn is_bad(&self, kind: StatementKind, sub: u8, place: usize, end: usize) -> bool {
        let owner = self.open.last();
        let owner_kind = owner.map(|&(kind, _)| kind);
        let owner_end = owner.map_or(self.table, |&(_, end)| end);
        let in_arm_holder = owner_kind.is_some_and(StatementKind::holds_arms);
        let is_arm = kind == StatementKind::Arm;
        let falls_through = is_arm && sub == 1;
        end <= place
            || end > owner_end
            || (!kind.holds_others() && end != place + 1)
            || is_arm != in_arm_holder
            || (falls_through && owner_kind != Some(StatementKind::Switch))
    }
}

/// The first If or Loop that doesn't directly hold exactly two arms (01, 2.5, step 7).
fn wrong_arms(records: &[StatementRecord]) -> Option<usize> {
    (0..records.len()).find(|&place| {
        let wants_two = matches!(records[place].kind, StatementKind::If | StatementKind::Loop);
        wants_two && direct_inside(records, place).count() != 2
    })
}

/// The places of the statements directly inside one.
pub fn direct_inside(
    records: &[StatementRecord],
    owner: usize,
) -> impl Iterator<Item = usize> + '_ {
    let end = records[owner].end;
    let inside = move |place: usize| (place < end).then_some(place);
    std::iter::successors(inside(owner + 1), move |&place| inside(records[place].end))
}

/// Whether an operand is absent where it is needed, or present where none is wanted (01, 2.6).
fn wrong_absence(kind: ExpressionKind, sub: u8, part: &[u16]) -> bool {
    part.iter()
        .enumerate()
        .any(|(position, &operand)| match presence(kind, sub, position) {
            Presence::Needed => operand == ABSENT,
            Presence::Optional => false,
            Presence::Unwanted => operand != ABSENT,
        })
}

/// The pool part of a record, if it lies within the pool.
fn in_pool(operands: &[u16], first: u16, count: u16) -> Option<&[u16]> {
    let first = usize::from(first);
    operands.get(first..first + usize::from(count))
}

fn present(operand: u16) -> Option<Expression> {
    (operand != ABSENT).then_some(Expression(operand))
}

fn numbers(bytes: &[u8]) -> Vec<u16> {
    bytes
        .chunks_exact(2)
        .map(|pair| u16::from_be_bytes([pair[0], pair[1]]))
        .collect()
}

/// Refuses with this number where the condition holds.
fn refuse(condition: bool, number: Number) -> Result<(), Number> {
    if condition {
        Err(number)
    } else {
        Ok(())
    }
}
