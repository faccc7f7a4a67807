//! What is known of a function after analysis, whoever found it.

use std::fmt;

/// One function's section of a report (01, 7.2).
#[derive(Clone, Debug, PartialEq, Eq)]
pub struct Summary {
    pub origin: Option<u16>,
    pub requirements: u8,
    pub may_kill: bool,
    /// One mask a global (01, 7.3).
    pub uses: Vec<u8>,
    /// Ascending (01, 4.4).
    pub pairs: Vec<(u16, u16)>,
    /// Ascending (01, 4.4).
    pub mixed: Vec<(End, End)>,
    pub expressions: Vec<ExpressionSummary>,
}

/// One expression's record (01, 7.4).
#[derive(Clone, Copy, Debug, PartialEq, Eq)]
pub struct ExpressionSummary {
    pub origin: Option<u16>,
    pub requirements: u8,
    pub count: u32,
    pub assignable: Option<u16>,
}

/// An end of a pair; globals come before arguments (01, 4.4).
#[derive(Clone, Copy, Debug, PartialEq, Eq, PartialOrd, Ord)]
pub enum End {
    Global(u16),
    Argument(u16),
}

impl fmt::Display for End {
    fn fmt(&self, f: &mut fmt::Formatter<'_>) -> fmt::Result {
        match self {
            End::Global(number) => write!(f, "global {number}"),
            End::Argument(number) => write!(f, "argument {number}"),
        }
    }
}
