//! Masks with named flags.

use std::fmt;

/// How a global is used (01, 7.3).
#[derive(Clone, Copy, Debug, Default, PartialEq, Eq, Hash)]
pub struct Uses(u8);

impl Uses {
    pub(crate) fn of_bits(bits: u8) -> Self {
        Uses(bits)
    }

    /// The mask as it stands in a report.
    pub fn bits(self) -> u8 {
        self.0
    }

    pub fn is_empty(self) -> bool {
        self.0 == 0
    }

    pub fn is_read(self) -> bool {
        self.0 & 1 != 0
    }

    pub fn is_written(self) -> bool {
        self.0 & 2 != 0
    }

    /// Its size or another property is asked for.
    pub fn is_queried(self) -> bool {
        self.0 & 4 != 0
    }

    /// Version 1 of the module file has nothing that marks it.
    pub fn is_atomic(self) -> bool {
        self.0 & 8 != 0
    }
}

impl fmt::Display for Uses {
    fn fmt(&self, f: &mut fmt::Formatter<'_>) -> fmt::Result {
        let named = [
            (self.is_read(), "read"),
            (self.is_written(), "written"),
            (self.is_queried(), "queried"),
            (self.is_atomic(), "atomic"),
        ];
        list(f, &named, "unused")
    }
}

/// What is required of control flow (01, 3.6).
#[derive(Clone, Copy, Debug, Default, PartialEq, Eq, Hash)]
pub struct Requirements(u8);

impl Requirements {
    pub(crate) fn of_bits(bits: u8) -> Self {
        Requirements(bits)
    }

    /// The mask as it stands in a report.
    pub fn bits(self) -> u8 {
        self.0
    }

    pub fn is_empty(self) -> bool {
        self.0 == 0
    }

    pub fn barrier(self) -> bool {
        self.0 & 1 != 0
    }

    pub fn derivative(self) -> bool {
        self.0 & 2 != 0
    }

    /// A sampling whose level follows from its neighbours.
    pub fn implicit_level(self) -> bool {
        self.0 & 4 != 0
    }

    pub fn cooperative(self) -> bool {
        self.0 & 8 != 0
    }
}

impl fmt::Display for Requirements {
    fn fmt(&self, f: &mut fmt::Formatter<'_>) -> fmt::Result {
        let named = [
            (self.barrier(), "barrier"),
            (self.derivative(), "derivative"),
            (self.implicit_level(), "implicit level"),
            (self.cooperative(), "cooperative"),
        ];
        list(f, &named, "nothing")
    }
}

/// The names of the flags that are set, or `none` where none is.
fn list(f: &mut fmt::Formatter<'_>, named: &[(bool, &str)], none: &str) -> fmt::Result {
    let set: Vec<&str> = named
        .iter()
        .filter(|(set, _)| *set)
        .map(|&(_, name)| name)
        .collect();
    if set.is_empty() {
        f.write_str(none)
    } else {
        f.write_str(&set.join(", "))
    }
}
