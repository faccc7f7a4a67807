//! Section 1: what stands in a module file, once its form is known to be right.

/// The file's version, and the report's (01, 1.2 and 7.1).
pub const VERSION: u8 = 1;

/// The limits of a module (01, 1.4).
pub const MOST_FILE_BYTES: usize = 65_536;
pub const MOST_GLOBALS: usize = 256;
pub const MOST_FUNCTIONS: usize = 64;
pub const MOST_AROUND: usize = 32;

/// Bytes before the space bytes (01, 1.2).
pub const HEADER_BYTES: usize = 10;

/// Bytes before a sheet's parts (01, 1.3).
pub const SHEET_HEADER_BYTES: usize = 17;

/// One of a sheet's six parts: how many records it may have, and the bytes of each (01, 1.3).
pub struct Part {
    pub limit: usize,
    pub record_bytes: usize,
}

/// The six parts in the order of the sheet: arguments, expressions, operands, statements,
/// initialisers, named expressions (01, 1.3).
pub const PARTS: [Part; 6] = [
    part(64, 1),
    part(2_048, 8),
    part(8_192, 2),
    part(1_024, 10),
    part(512, 2),
    part(512, 2),
];

const fn part(limit: usize, record_bytes: usize) -> Part {
    Part {
        limit,
        record_bytes,
    }
}

/// The number of an expression within its function.
#[derive(Clone, Copy, Debug, PartialEq, Eq)]
pub struct Expression(pub u16);

/// The number of a global.
#[derive(Clone, Copy, Debug, PartialEq, Eq, PartialOrd, Ord)]
pub struct Global(pub u16);

/// The number of an argument within its function.
#[derive(Clone, Copy, Debug, PartialEq, Eq, PartialOrd, Ord)]
pub struct Argument(pub u16);

impl Expression {
    pub fn index(self) -> usize {
        usize::from(self.0)
    }
}

/// A module whose form is right.
pub struct Module {
    pub capabilities: u8,
    pub spaces: Vec<Space>,
    pub sheets: Vec<Sheet>,
}

impl Module {
    pub fn space(&self, global: Global) -> Space {
        self.spaces[usize::from(global.0)]
    }
}

/// One function's sheet.
pub struct Sheet {
    /// Whether control flow is checked in this function (01, 1.8).
    pub checks_control_flow: bool,
    /// The argument bytes (01, 1.8).
    pub arguments: Vec<u8>,
    pub expressions: Vec<ExpressionRecord>,
    /// The operand pool; absent operands are `None`.
    pub operands: Vec<Option<Expression>>,
    pub statements: Vec<StatementRecord>,
    pub initialisers: Vec<Expression>,
    pub named: Vec<Expression>,
}

impl Sheet {
    /// The pool part of a record whose part is in range.
    pub fn pool_part(&self, part: PoolPart) -> &[Option<Expression>] {
        &self.operands[part.first..part.first + part.count]
    }
}

/// Which pool entries a record uses (01, 1.5).
#[derive(Clone, Copy)]
pub struct PoolPart {
    pub first: usize,
    pub count: usize,
}

/// An expression record (01, 1.5).
#[derive(Clone, Copy)]
pub struct ExpressionRecord {
    pub kind: ExpressionKind,
    pub sub: u8,
    pub number: u16,
    pub part: PoolPart,
}

/// A statement record (01, 1.6). `part` is empty in an Emit, `emitted` in all others.
#[derive(Clone)]
pub struct StatementRecord {
    pub kind: StatementKind,
    pub falls_through: bool,
    pub number: u16,
    pub end: usize,
    pub part: PoolPart,
    pub emitted: std::ops::Range<usize>,
}

/// The nineteen kinds of expression, in the order of their codes (01, 4.1).
#[derive(Clone, Copy, Debug, PartialEq, Eq)]
pub enum ExpressionKind {
    Literal,
    FunctionArgument,
    GlobalVariable,
    LocalVariable,
    CallResult,
    Access,
    AccessIndex,
    Splat,
    Derivative,
    Binary,
    Select,
    Compose,
    Math,
    ImageSample,
    ImageLoad,
    ImageQuery,
    ArrayLength,
    CooperativeLoad,
    CooperativeMultiplyAdd,
}

impl ExpressionKind {
    const ALL: [ExpressionKind; 19] = [
        ExpressionKind::Literal,
        ExpressionKind::FunctionArgument,
        ExpressionKind::GlobalVariable,
        ExpressionKind::LocalVariable,
        ExpressionKind::CallResult,
        ExpressionKind::Access,
        ExpressionKind::AccessIndex,
        ExpressionKind::Splat,
        ExpressionKind::Derivative,
        ExpressionKind::Binary,
        ExpressionKind::Select,
        ExpressionKind::Compose,
        ExpressionKind::Math,
        ExpressionKind::ImageSample,
        ExpressionKind::ImageLoad,
        ExpressionKind::ImageQuery,
        ExpressionKind::ArrayLength,
        ExpressionKind::CooperativeLoad,
        ExpressionKind::CooperativeMultiplyAdd,
    ];

    pub fn from_code(code: u8) -> Option<Self> {
        Self::ALL.get(usize::from(code)).copied()
    }

    /// Whether the kind has this sub (01, 4.1).
    pub fn has_sub(self, sub: u8) -> bool {
        match self {
            ExpressionKind::Access => sub <= 3,
            ExpressionKind::ImageSample => sub <= 4,
            _ => sub == 0,
        }
    }

    /// Whether `number` has a use (01, 1.9).
    pub fn uses_number(self) -> bool {
        matches!(
            self,
            ExpressionKind::FunctionArgument
                | ExpressionKind::GlobalVariable
                | ExpressionKind::CallResult
        )
    }
}

/// The twelve kinds of statement, in the order of their codes (01, 5.2).
#[derive(Clone, Copy, Debug, PartialEq, Eq)]
pub enum StatementKind {
    Emit,
    Break,
    Kill,
    Barrier,
    Return,
    Store,
    Call,
    Block,
    If,
    Switch,
    Loop,
    Arm,
}

impl StatementKind {
    const ALL: [StatementKind; 12] = [
        StatementKind::Emit,
        StatementKind::Break,
        StatementKind::Kill,
        StatementKind::Barrier,
        StatementKind::Return,
        StatementKind::Store,
        StatementKind::Call,
        StatementKind::Block,
        StatementKind::If,
        StatementKind::Switch,
        StatementKind::Loop,
        StatementKind::Arm,
    ];

    pub fn from_code(code: u8) -> Option<Self> {
        Self::ALL.get(usize::from(code)).copied()
    }

    /// Whether the kind has this sub: only an Arm has a second one (01, 2.7).
    pub fn has_sub(self, sub: u8) -> bool {
        sub == 0 || (self == StatementKind::Arm && sub == 1)
    }

    /// Whether `number` has a use (01, 1.9).
    pub fn uses_number(self) -> bool {
        matches!(self, StatementKind::Emit | StatementKind::Call)
    }

    /// Whether a statement of this kind may hold others (01, 2.8).
    pub fn holds_others(self) -> bool {
        self == StatementKind::Block || self == StatementKind::Arm || self.holds_arms()
    }

    /// Whether a statement of this kind holds arms and nothing else (01, 2.8).
    pub fn holds_arms(self) -> bool {
        matches!(
            self,
            StatementKind::If | StatementKind::Switch | StatementKind::Loop
        )
    }

    /// Whether the kind takes this many operands. A Call's count is not a matter of form 5: it is
    /// held against its callee by refusal 10 (01, 5.2 and 2.7).
    pub fn takes(self, count: usize) -> bool {
        match self {
            StatementKind::Return | StatementKind::Loop => count <= 1,
            StatementKind::Store => count == 2,
            StatementKind::If | StatementKind::Switch => count == 1,
            StatementKind::Call => true,
            _ => count == 0,
        }
    }
}

/// A global's address space, by its code (01, 1.8).
#[derive(Clone, Copy, Debug, PartialEq, Eq)]
pub struct Space(u8);

impl Space {
    const UNIFORM: u8 = 6;
    const STORAGE_WITHOUT_STORE: u8 = 8;
    const STORAGE_WITH_STORE: u8 = 9;
    const LAST: u8 = 10;

    pub fn from_code(code: u8) -> Option<Self> {
        (code <= Self::LAST).then_some(Space(code))
    }

    /// Spaces 4 to 8 are uniform (01, 1.8).
    pub fn is_uniform(self) -> bool {
        (4..=8).contains(&self.0)
    }

    pub fn is_uniform_buffer(self) -> bool {
        self.0 == Self::UNIFORM
    }

    pub fn is_storage(self) -> bool {
        self.0 == Self::STORAGE_WITHOUT_STORE || self.0 == Self::STORAGE_WITH_STORE
    }
}

/// Capability bits: what may be indexed non-uniformly (01, 1.8).
pub mod capability {
    pub const SAMPLED_IMAGES_AND_SAMPLERS: u8 = 1;
    pub const STORAGE_IMAGES: u8 = 2;
    pub const UNIFORM_BUFFERS: u8 = 4;
    pub const STORAGE_BUFFERS: u8 = 8;
    pub const ALL: u8 = 15;
}

/// Big-endian numbers taken one after another from the front of some bytes (01, 1.1).
///
/// The caller has made sure that the bytes are there.
pub struct Reader<'a> {
    rest: &'a [u8],
}

impl<'a> Reader<'a> {
    pub fn new(bytes: &'a [u8]) -> Self {
        Reader { rest: bytes }
    }

    pub fn left(&self) -> usize {
        self.rest.len()
    }

    pub fn bytes(&mut self, count: usize) -> &'a [u8] {
        let (taken, rest) = self.rest.split_at(count);
        self.rest = rest;
        taken
    }

    pub fn u8(&mut self) -> u8 {
        self.bytes(1)[0]
    }

    pub fn u16(&mut self) -> u16 {
        let bytes = self.bytes(2);
        u16::from_be_bytes([bytes[0], bytes[1]])
    }

    pub fn u32(&mut self) -> u32 {
        let bytes = self.bytes(4);
        u32::from_be_bytes([bytes[0], bytes[1], bytes[2], bytes[3]])
    }
}
