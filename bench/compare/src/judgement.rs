//! One module under both, and what follows from it.

use crate::chains;
use convert::{module_file, Settings};
use files::ModuleFile;
use naga::Module;
use reference::Answer;
use release::{Comparison, Difference, Reason, Summary, Verdict};

/// What comparing one module came to.
pub enum Judgement {
    /// Both accept, and every field compared agrees.
    EqualReports(Found),
    /// Both refuse, alike in all values.
    EqualRefusals {
        number: u8,
        cause: u8,
    },
    /// They differ, and a rule of `docs/DIFFERENCES.md` says exactly how.
    Explained(Rule, Difference),
    /// They differ, and nothing says why; with the module file's length.
    Unexplained(Difference, usize),
    /// 01 has no room or no record for the module.
    NotMade,
    /// 01 refuses with a number that isn't compared.
    NotCompared(u8),
    NotComparable(Reason),
}

/// What is in a module that both accept.
pub struct Found {
    pub summaries: Vec<Summary>,
    /// The most calls that a pair of globals needs.
    pub longest_chain: usize,
}

/// The rules of `docs/DIFFERENCES.md`.
#[derive(Clone, Copy, Debug, PartialEq, Eq, PartialOrd, Ord)]
pub enum Rule {
    /// Refusal 7 in a Call names another of its operands.
    SevenElsewhere,
}

/// What is held against the release: its answer on a module file, or what it did that no answer may do.
pub type Analyse<'a> = &'a dyn Fn(&[u8]) -> Result<Answer, String>;

/// The reference of document 01 in that place.
pub fn reference(file: &[u8]) -> Result<Answer, String> {
    Ok(reference::analyse(file))
}

/// Runs the release and what is held against it on a module.
///
/// The release comes first: it checks the module's handles, which the converter relies on.
pub fn judge(module: &Module, settings: Settings, analyse: Analyse) -> Judgement {
    let verdict = release::run(module, settings);
    if let Verdict::NotComparable(reason) = verdict {
        return Judgement::NotComparable(reason);
    }
    let Ok(file) = module_file(module, settings) else {
        return Judgement::NotMade;
    };
    let bytes = file.encode();
    match analyse(&bytes) {
        Ok(answer) => judge_answer(&file, &answer, verdict),
        Err(wrong) => {
            let difference = Difference::Verdict {
                ours: wrong,
                release: "does no such thing".to_string(),
            };
            Judgement::Unexplained(difference, bytes.len())
        }
    }
}

/// Holds an answer on a file against the release's on the module that the file was made from.
pub fn judge_answer(file: &ModuleFile, answer: &Answer, verdict: Verdict) -> Judgement {
    match release::compare(file, answer, &verdict) {
        Comparison::EqualReports => Judgement::EqualReports(Found {
            summaries: match verdict {
                Verdict::Accepted(summaries) => summaries,
                _ => Vec::new(),
            },
            longest_chain: chains::longest(file),
        }),
        Comparison::EqualRefusals(number) => Judgement::EqualRefusals {
            number,
            cause: match verdict {
                Verdict::Refused(refusal) => refusal.cause,
                _ => 0,
            },
        },
        Comparison::SevenElsewhere(difference) => {
            Judgement::Explained(Rule::SevenElsewhere, difference)
        }
        Comparison::NotCompared(number) => Judgement::NotCompared(number),
        Comparison::NotComparable(reason) => Judgement::NotComparable(reason),
        Comparison::Different(difference) => {
            Judgement::Unexplained(difference, file.encode().len())
        }
    }
}

#[cfg(test)]
mod tests {
    use super::*;

    /// How an answer compares on a module in which the release and 01 agree.
    fn judged(analyse: Analyse) -> Judgement {
        let module = naga::front::wgsl::parse_str(
            "var<private> p: f32;
             fn twice(x: f32) -> f32 { p = x; return x + x; }",
        )
        .expect("it is WGSL");
        let settings = Settings {
            capabilities: naga::valid::Capabilities::empty(),
            check_control_flow: true,
        };
        judge(&module, settings, analyse)
    }

    #[test]
    fn the_answer_given_is_the_one_that_is_judged() {
        assert!(matches!(judged(&reference), Judgement::EqualReports(_)));

        let other_count = |file: &[u8]| match reference(file)? {
            Answer::Report(mut report) => {
                // The last expression's count ends three bytes before the report's end (01, 7.4).
                let last = report.len() - 3;
                report[last] += 1;
                Ok(Answer::Report(report))
            }
            refused => Ok(refused),
        };
        assert!(matches!(judged(&other_count), Judgement::Unexplained(..)));

        let wrong = |_: &[u8]| Err("leaves bytes".to_string());
        let Judgement::Unexplained(difference, _) = judged(&wrong) else {
            panic!("what is no answer can't be explained");
        };
        assert!(difference.to_string().contains("leaves bytes"));
    }
}
