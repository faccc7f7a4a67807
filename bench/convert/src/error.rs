//! Why a module has no file.

use naga::proc::ResolveError;
use std::fmt;

/// What 01 has no room or no record for.
#[derive(Clone, Debug)]
pub enum Error {
    /// More of something than 01 allows (01, 1.3 and 1.4).
    TooMany {
        function: Option<FunctionName>,
        part: Part,
        count: usize,
    },
    /// A statement that 01 has no kind for (01, 5.2).
    Statement {
        function: FunctionName,
        statement: &'static str,
    },
    /// An expression without a type; the release refuses the module for it.
    Type {
        function: FunctionName,
        expression: usize,
        source: ResolveError,
    },
}

/// A function as a message names it.
#[derive(Clone, Debug, PartialEq, Eq)]
pub struct FunctionName {
    /// Its number in the module file.
    pub number: usize,
    pub name: String,
    pub entry_point: bool,
}

/// What 01 sets a limit to.
#[derive(Clone, Copy, Debug, PartialEq, Eq)]
pub enum Part {
    Bytes,
    Globals,
    Functions,
    Arguments,
    Expressions,
    Operands,
    Statements,
    Initialisers,
    Named,
}

impl Part {
    /// 01, 1.3 and 1.4.
    fn limit(self) -> usize {
        match self {
            Part::Bytes => 65_536,
            Part::Globals => 256,
            Part::Functions | Part::Arguments => 64,
            Part::Expressions => 2_048,
            Part::Operands => 8_192,
            Part::Statements => 1_024,
            Part::Initialisers | Part::Named => 512,
        }
    }

    pub(crate) fn check(self, count: usize, function: Option<&FunctionName>) -> Result<(), Error> {
        if count <= self.limit() {
            return Ok(());
        }
        Err(Error::TooMany {
            function: function.cloned(),
            part: self,
            count,
        })
    }
}

impl fmt::Display for Part {
    fn fmt(&self, f: &mut fmt::Formatter<'_>) -> fmt::Result {
        f.write_str(match self {
            Part::Bytes => "bytes of module file",
            Part::Globals => "globals",
            Part::Functions => "functions and entry points",
            Part::Arguments => "arguments",
            Part::Expressions => "expressions",
            Part::Operands => "operands",
            Part::Statements => "statements, arms counted",
            Part::Initialisers => "initialisers",
            Part::Named => "named expressions",
        })
    }
}

impl fmt::Display for FunctionName {
    fn fmt(&self, f: &mut fmt::Formatter<'_>) -> fmt::Result {
        let what = if self.entry_point {
            "entry point"
        } else {
            "function"
        };
        write!(f, "{what} {} `{}`", self.number, self.name)
    }
}

impl fmt::Display for Error {
    fn fmt(&self, f: &mut fmt::Formatter<'_>) -> fmt::Result {
        match self {
            Error::TooMany {
                function,
                part,
                count,
            } => {
                match function {
                    Some(function) => write!(f, "{function}")?,
                    None => f.write_str("the module")?,
                }
                write!(f, " has {count} {part}, {} are allowed", part.limit())
            }
            Error::Statement {
                function,
                statement,
            } => write!(
                f,
                "{function} has the statement {statement}, which has no kind in a module file"
            ),
            Error::Type {
                function,
                expression,
                source,
            } => write!(
                f,
                "{function}: expression {expression} has no type: {source}"
            ),
        }
    }
}

impl std::error::Error for Error {}
