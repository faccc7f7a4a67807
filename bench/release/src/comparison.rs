//! An answer of document 01 held against the release's, field by field (01, 14.2).

use crate::report::read_report;
use crate::run::{Reason, Verdict};
use crate::summary::{ExpressionSummary, Summary};
use crate::trace::{operands, trace, CALL};
use files::ModuleFile;
use reference::{Answer, Refusal};
use std::fmt::{self, Debug};

/// The requirements that are compared: the release has the two others at zero.
const COMPARED_REQUIREMENTS: u8 = 1 | 8;

/// How an answer and the release's compare.
#[derive(Clone, Debug, PartialEq, Eq)]
pub enum Comparison {
    /// Both accept, and every field compared agrees.
    EqualReports,
    /// Both refuse with this number, function, place and cause.
    EqualRefusals(u8),
    /// Both refuse the same Call with 7, each at another of its operands that can't be traced. 01 takes the
    /// callee's mixed pairs in ascending order, the release in its hash set's, so either may come first.
    SevenElsewhere(Difference),
    /// 01 refuses with a number that isn't compared.
    NotCompared(u8),
    NotComparable(Reason),
    Different(Difference),
}

/// The first difference, in order of function and of a section's parts.
#[derive(Clone, Debug, PartialEq, Eq)]
pub enum Difference {
    /// Our report isn't one.
    Malformed,
    /// One accepts and the other refuses, or the refusals differ.
    Verdict { ours: String, release: String },
    /// The number of functions, or of some part of one.
    Field {
        function: usize,
        field: String,
        ours: String,
        release: String,
    },
}

/// Compares an answer on a file with the release's on the module it was made from.
pub fn compare(file: &ModuleFile, ours: &Answer, release: &Verdict) -> Comparison {
    let not_compared = |number| matches!(number, 1..=6 | 8 | 10 | 12 | 14 | 15);
    match (ours, release) {
        (Answer::Refused(refusal), _) if not_compared(refusal.number) => {
            Comparison::NotCompared(refusal.number)
        }
        (_, Verdict::NotComparable(reason)) => Comparison::NotComparable(*reason),
        (Answer::Report(report), Verdict::Accepted(summaries)) => {
            match reports(report, summaries) {
                Ok(()) => Comparison::EqualReports,
                Err(difference) => Comparison::Different(difference),
            }
        }
        (Answer::Refused(ours), Verdict::Refused(release)) => refusals(file, ours, release),
        (Answer::Refused(refusal), Verdict::Accepted(_)) => {
            Comparison::Different(verdicts(said(refusal), "accepted".to_string()))
        }
        (Answer::Report(_), Verdict::Refused(refusal)) => {
            Comparison::Different(verdicts("accepted".to_string(), said(refusal)))
        }
    }
}

fn verdicts(ours: String, release: String) -> Difference {
    Difference::Verdict { ours, release }
}

fn said(refusal: &Refusal) -> String {
    let cause = match refusal.cause {
        0 => String::new(),
        1 => format!(", cause expression {}", refusal.value),
        2 => ", cause Return".to_string(),
        3 => ", cause Discard".to_string(),
        other => format!(", cause {other}"),
    };
    format!(
        "refused with {} in function {} at {}{cause}",
        refusal.number, refusal.function, refusal.place
    )
}

fn refusals(file: &ModuleFile, ours: &Refusal, release: &Refusal) -> Comparison {
    if ours == release {
        return Comparison::EqualRefusals(ours.number);
    }
    let difference = verdicts(said(ours), said(release));
    let same_but_place = Refusal {
        place: ours.place,
        ..*release
    } == *ours;
    if same_but_place && ours.number == 7 && untraced_in_one_call(file, ours, release.place) {
        return Comparison::SevenElsewhere(difference);
    }
    Comparison::Different(difference)
}

/// Whether some Call has both places among its operands, neither of which can be traced (01, 4.3).
fn untraced_in_one_call(file: &ModuleFile, ours: &Refusal, other: u16) -> bool {
    let Some(sheet) = file.sheets.get(usize::from(ours.function)) else {
        return false;
    };
    let untraced = |expression| trace(sheet, expression).is_none();
    untraced(ours.place)
        && untraced(other)
        && sheet
            .statements
            .iter()
            .filter(|statement| statement.kind == CALL)
            .map(|call| operands(sheet, call.first, call.count))
            .any(|operands| operands.contains(&ours.place) && operands.contains(&other))
}

fn reports(report: &[u8], release: &[Summary]) -> Result<(), Difference> {
    let ours = read_report(report).ok_or(Difference::Malformed)?;
    equal(0, "number of functions", &ours.len(), &release.len())?;
    ours.iter()
        .zip(release)
        .enumerate()
        .try_for_each(|(function, (ours, release))| sections(function, ours, release))
}

/// Every field of a function's section (01, 7.2).
fn sections(function: usize, ours: &Summary, release: &Summary) -> Result<(), Difference> {
    let requirements = |mask: u8| mask & COMPARED_REQUIREMENTS;
    equal(function, "origin", &ours.origin, &release.origin)?;
    equal(
        function,
        "requirements",
        &requirements(ours.requirements),
        &requirements(release.requirements),
    )?;
    equal(function, "may-kill", &ours.may_kill, &release.may_kill)?;
    each(function, "use of global", &ours.uses, &release.uses)?;
    each(function, "pair", &ours.pairs, &release.pairs)?;
    each(function, "mixed pair", &ours.mixed, &release.mixed)?;
    let compared = |expression: &ExpressionSummary| ExpressionSummary {
        requirements: requirements(expression.requirements),
        ..*expression
    };
    let ours: Vec<_> = ours.expressions.iter().map(compared).collect();
    let release: Vec<_> = release.expressions.iter().map(compared).collect();
    each(function, "expression", &ours, &release)
}

fn each<T: Debug + PartialEq>(
    function: usize,
    field: &str,
    ours: &[T],
    release: &[T],
) -> Result<(), Difference> {
    if ours == release {
        return Ok(());
    }
    for (place, (ours, release)) in ours.iter().zip(release).enumerate() {
        equal(function, &format!("{field} {place}"), ours, release)?;
    }
    equal(
        function,
        &format!("number of {field}s"),
        &ours.len(),
        &release.len(),
    )
}

fn equal<T: Debug + PartialEq>(
    function: usize,
    field: &str,
    ours: &T,
    release: &T,
) -> Result<(), Difference> {
    if ours == release {
        return Ok(());
    }
    Err(Difference::Field {
        function,
        field: field.to_string(),
        ours: format!("{ours:?}"),
        release: format!("{release:?}"),
    })
}

impl fmt::Display for Difference {
    fn fmt(&self, f: &mut fmt::Formatter<'_>) -> fmt::Result {
        match self {
            Difference::Malformed => f.write_str("malformed report"),
            Difference::Verdict { ours, release } => {
                write!(f, "ours {ours}, the release {release}")
            }
            Difference::Field {
                function,
                field,
                ours,
                release,
            } => write!(
                f,
                "function {function}, {field}: ours {ours}, the release {release}"
            ),
        }
    }
}
