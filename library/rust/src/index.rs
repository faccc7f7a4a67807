//! Numbers of expressions, globals, arguments and functions: four types, so that none is taken for another.

use std::fmt;

/// Stands in a report for no expression and no global (01, 7.2 and 7.4).
const NONE: u16 = 65_535;

macro_rules! index {
    ($(#[$doc:meta])* $name:ident, $word:literal) => {
        $(#[$doc])*
        #[derive(Clone, Copy, Debug, PartialEq, Eq, PartialOrd, Ord, Hash)]
        pub struct $name(pub u16);

        impl fmt::Display for $name {
            fn fmt(&self, f: &mut fmt::Formatter<'_>) -> fmt::Result {
                write!(f, concat!($word, " {}"), self.0)
            }
        }
    };
}

index! {
    /// An expression of a function.
    ExpressionIndex, "expression"
}
index! {
    /// A global variable of the module.
    GlobalIndex, "global"
}
index! {
    /// An argument of a function.
    ArgumentIndex, "argument"
}
index! {
    /// A function of the module. In files that are made from a shader the entry points come last.
    FunctionIndex, "function"
}

impl ExpressionIndex {
    pub(crate) fn or_none(number: u16) -> Option<Self> {
        (number != NONE).then_some(ExpressionIndex(number))
    }
}

impl GlobalIndex {
    pub(crate) fn or_none(number: u16) -> Option<Self> {
        (number != NONE).then_some(GlobalIndex(number))
    }
}
