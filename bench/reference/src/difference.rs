//! The first difference between two answers, said so that a person sees where to look.

use std::fmt;

use crate::report::{Report, Section};
use crate::Answer;

/// Where two answers differ first, and what each has there.
#[derive(Clone, Debug, PartialEq, Eq)]
pub struct Difference {
    pub place: String,
    pub left: String,
    pub right: String,
}

impl fmt::Display for Difference {
    fn fmt(&self, out: &mut fmt::Formatter<'_>) -> fmt::Result {
        write!(out, "{}: {} / {}", self.place, self.left, self.right)
    }
}

/// The first difference in the order of the report, or `None` where the answers are the same.
pub fn first_difference(left: &Answer, right: &Answer) -> Option<Difference> {
    if left == right {
        return None;
    }
    let (Answer::Report(left_bytes), Answer::Report(right_bytes)) = (left, right) else {
        return Some(Difference {
            place: "answer".into(),
            left: short(left),
            right: short(right),
        });
    };
    reports_differ(left_bytes, right_bytes).or_else(|| bytes_differ(left_bytes, right_bytes))
}

/// What an answer is in a few words; a report's fields are for [`reports_differ`].
fn short(answer: &Answer) -> String {
    match answer {
        Answer::Report(bytes) => format!("report of {} bytes", bytes.len()),
        Answer::Refused(refusal) => format!(
            "refused {} (function {}, place {}, cause {}, value {})",
            refusal.number, refusal.function, refusal.place, refusal.cause, refusal.value
        ),
    }
}

/// The first field in which two reports differ; `None` also where one of them can't be taken apart.
fn reports_differ(left: &[u8], right: &[u8]) -> Option<Difference> {
    let (left, right) = (Report::read(left)?, Report::read(right)?);
    differ("globals", &left.globals(), &right.globals())
        .or_else(|| differ("functions", &left.functions(), &right.functions()))
        .or_else(|| {
            let sections = left.sections().iter().zip(right.sections());
            sections
                .enumerate()
                .find_map(|(number, (left, right))| sections_differ(number, left, right))
        })
}

fn sections_differ(number: usize, left: &Section, right: &Section) -> Option<Difference> {
    let place = |field: &str| format!("function {number}, {field}");
    differ(place("origin"), &left.origin(), &right.origin())
        .or_else(|| {
            differ(
                place("requirements"),
                &left.requirements(),
                &right.requirements(),
            )
        })
        .or_else(|| differ(place("may-kill"), &left.may_kill(), &right.may_kill()))
        .or_else(|| lists_differ(&place("use of global"), left.uses(), right.uses()))
        .or_else(|| lists_differ(&place("pair"), &left.pairs(), &right.pairs()))
        .or_else(|| lists_differ(&place("mixed pair"), &left.mixed(), &right.mixed()))
        .or_else(|| {
            lists_differ(
                &place("expression"),
                &left.expressions(),
                &right.expressions(),
            )
        })
}

/// The first entry in which two lists differ, or that only one of them has.
fn lists_differ<T: PartialEq + fmt::Debug>(
    place: &str,
    left: &[T],
    right: &[T],
) -> Option<Difference> {
    (0..left.len().max(right.len()))
        .find_map(|i| differ(format!("{place} {i}"), &left.get(i), &right.get(i)))
}

/// For reports that can't be taken apart: the first byte.
fn bytes_differ(left: &[u8], right: &[u8]) -> Option<Difference> {
    lists_differ("byte", left, right)
}

fn differ<T: PartialEq + fmt::Debug>(
    place: impl Into<String>,
    left: &T,
    right: &T,
) -> Option<Difference> {
    (left != right).then(|| Difference {
        place: place.into(),
        left: format!("{left:?}"),
        right: format!("{right:?}"),
    })
}
