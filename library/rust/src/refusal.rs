//! Why a module is refused (01, 8.1).

use std::error::Error;
use std::fmt;

use crate::index::{ExpressionIndex, FunctionIndex};

/// One refusal: which, where and, for [`RefusalKind::NonUniform`], why.
#[derive(Clone, Copy, Debug, PartialEq, Eq, Hash)]
pub struct Refusal {
    pub kind: RefusalKind,
    /// The function in question; 0 where the refusal is about the module's header.
    pub function: FunctionIndex,
    /// The index, in its own part of the module file, of the record that was checked or walked; 0 where there is none.
    pub place: u16,
    pub cause: Option<Cause>,
}

/// The refusals of document 01, by name, each with its number. 13 is retired and given to nothing.
#[derive(Clone, Copy, Debug, PartialEq, Eq, PartialOrd, Ord, Hash)]
#[repr(u8)]
pub enum RefusalKind {
    /// 1: lent memory is too short. It can't come from an [`Analyzer`](crate::Analyzer), which owns enough.
    Lent = 1,
    /// 2: a length or the version is wrong, the file is too long or too short, or bytes are left over.
    Length = 2,
    /// 3: a count is over its limit.
    Count = 3,
    /// 4: an unknown code or bit, or a sub that its kind doesn't have.
    Code = 4,
    /// 5: a record is not shaped as its kind wants.
    Shape = 5,
    /// 6: a number names nothing there.
    Range = 6,
    /// 7: an image or a sampler can't be traced to a global or an argument.
    Untraced = 7,
    /// 8: the base of an Access to an array of buffers is no global in Uniform or Storage.
    Base = 8,
    /// 9: a non-uniform index into a binding array without its capability.
    Capability = 9,
    /// 10: a Call with another number of arguments than its callee has.
    Arguments = 10,
    /// 11: a barrier or cooperative requirement in control flow that is not uniform.
    NonUniform = 11,
    /// 12: a 257th pair or mixed pair of one function.
    Full = 12,
    /// 14: the report would pass its limit.
    ReportTooLong = 14,
    /// 15: a statement stands inside more than 32 others.
    Deep = 15,
}

/// What made control flow non-uniform before a [`RefusalKind::NonUniform`].
#[derive(Clone, Copy, Debug, PartialEq, Eq, Hash)]
pub enum Cause {
    Expression(ExpressionIndex),
    Return,
    Discard,
}

/// All kinds, in the order of their numbers.
const KINDS: [RefusalKind; 14] = [
    RefusalKind::Lent,
    RefusalKind::Length,
    RefusalKind::Count,
    RefusalKind::Code,
    RefusalKind::Shape,
    RefusalKind::Range,
    RefusalKind::Untraced,
    RefusalKind::Base,
    RefusalKind::Capability,
    RefusalKind::Arguments,
    RefusalKind::NonUniform,
    RefusalKind::Full,
    RefusalKind::ReportTooLong,
    RefusalKind::Deep,
];

impl RefusalKind {
    /// The number that document 01 gives it: 1 to 12, 14 or 15.
    pub fn number(self) -> u8 {
        self as u8
    }

    /// The kind of this number, if it is one of document 01's.
    pub fn of_number(number: u8) -> Option<Self> {
        KINDS.into_iter().find(|kind| kind.number() == number)
    }

    /// What it means, in a few words.
    pub fn meaning(self) -> &'static str {
        match self {
            RefusalKind::Lent => "a lent slice is too short",
            RefusalKind::Length => "a length or the version is wrong",
            RefusalKind::Count => "a count is over its limit",
            RefusalKind::Code => "an unknown code",
            RefusalKind::Shape => "a record is not shaped as its kind wants",
            RefusalKind::Range => "a number that names nothing there",
            RefusalKind::Untraced => "an image or sampler can't be traced",
            RefusalKind::Base => "the base of an access is no buffer",
            RefusalKind::Capability => "a non-uniform index without its capability",
            RefusalKind::Arguments => "a call with a wrong number of arguments",
            RefusalKind::NonUniform => "control flow must be uniform and is not",
            RefusalKind::Full => "too many pairs",
            RefusalKind::ReportTooLong => "the report would be too long",
            RefusalKind::Deep => "a statement stands too deep",
        }
    }
}

impl Refusal {
    /// The refusal that an answer of the library packs; `None` for a report, whose number is 0.
    pub(crate) fn of_packed(packed: u64) -> Option<Self> {
        let number = (packed >> 56) as u8;
        if number == 0 {
            return None;
        }
        let kind =
            RefusalKind::of_number(number).expect("the library promises a number of document 01");
        Some(Refusal {
            kind,
            function: FunctionIndex((packed >> 40) as u16),
            place: (packed >> 24) as u16,
            cause: cause((packed >> 16) as u8, packed as u16),
        })
    }
}

fn cause(code: u8, value: u16) -> Option<Cause> {
    match code {
        1 => Some(Cause::Expression(ExpressionIndex(value))),
        2 => Some(Cause::Return),
        3 => Some(Cause::Discard),
        _ => None,
    }
}

/// The line that the program `fiuraccju` prints.
impl fmt::Display for Refusal {
    fn fmt(&self, f: &mut fmt::Formatter<'_>) -> fmt::Result {
        write!(
            f,
            "refused {}: {}; {}, place {}",
            self.kind.number(),
            self.kind.meaning(),
            self.function,
            self.place
        )?;
        match self.cause {
            None => Ok(()),
            Some(cause) => write!(f, ", cause: {cause}"),
        }
    }
}

impl fmt::Display for Cause {
    fn fmt(&self, f: &mut fmt::Formatter<'_>) -> fmt::Result {
        match self {
            Cause::Expression(expression) => expression.fmt(f),
            Cause::Return => f.write_str("a return before it"),
            Cause::Discard => f.write_str("a discard before it"),
        }
    }
}

impl Error for Refusal {}

#[cfg(test)]
mod tests {
    use super::*;

    /// The table of 01, 8.1: no number moves, and 13 is given to nothing.
    #[test]
    fn the_fifteen_numbers() {
        let table = [
            (1, Some(RefusalKind::Lent)),
            (2, Some(RefusalKind::Length)),
            (3, Some(RefusalKind::Count)),
            (4, Some(RefusalKind::Code)),
            (5, Some(RefusalKind::Shape)),
            (6, Some(RefusalKind::Range)),
            (7, Some(RefusalKind::Untraced)),
            (8, Some(RefusalKind::Base)),
            (9, Some(RefusalKind::Capability)),
            (10, Some(RefusalKind::Arguments)),
            (11, Some(RefusalKind::NonUniform)),
            (12, Some(RefusalKind::Full)),
            (13, None),
            (14, Some(RefusalKind::ReportTooLong)),
            (15, Some(RefusalKind::Deep)),
        ];
        for (number, kind) in table {
            assert_eq!(RefusalKind::of_number(number), kind);
            assert_eq!(kind.map_or(number, RefusalKind::number), number);
        }
        let kinds = table.into_iter().filter_map(|(_, kind)| kind);
        assert!(kinds.eq(KINDS));
        assert_eq!(RefusalKind::of_number(0), None);
        assert_eq!(RefusalKind::of_number(16), None);
    }

    /// Digit by digit as 01, 8.1 and the definition `packed` have them: number, function, place, cause, the cause's number.
    #[test]
    fn a_refusal_is_unpacked() {
        let refusal = Refusal {
            kind: RefusalKind::NonUniform,
            function: FunctionIndex(0x1234),
            place: 0x5678,
            cause: Some(Cause::Expression(ExpressionIndex(0x9ABC))),
        };
        assert_eq!(Refusal::of_packed(0x0B12_3456_7801_9ABC), Some(refusal));
    }

    #[test]
    fn the_longest_report_is_no_refusal() {
        assert_eq!(Refusal::of_packed(65_536), None);
    }
}
