//! Who agreed on an entry's answer: the reference alone, or the release too.

use std::fmt;

use compare::{judge_answer, Judgement, Rule};
use convert::module_file;
use reference::analyse;
use release::Difference;

use crate::entries::{Entry, Held, Wanted};
use crate::list::Expected;

#[derive(Clone, Debug, PartialEq, Eq)]
pub enum Agreed {
    /// The file is made from no naga module, or the release has no answer that can be compared (01, 14.2).
    Reference,
    /// Every field and value that is compared is the same.
    Both,
    /// A difference of `docs/DIFFERENCES.md`.
    Explained(Rule, Difference),
}

/// Holds what the list says of an entry against the release, where the entry has a naga module.
pub fn agreed(entry: &Entry, listed: &Expected) -> Result<Agreed, String> {
    let Some(held) = &entry.held else {
        return Ok(Agreed::Reference);
    };
    let file = module_file(&held.module, held.settings).map_err(|error| error.to_string())?;
    if file.encode() != entry.file {
        return Err("its naga module is converted to another file".into());
    }
    let answer = match listed {
        Expected::Whole(answer) => answer.clone(),
        // The list has only its length and sum, which `differs_from` compares with the reference's.
        Expected::LongReport { .. } => analyse(&entry.file),
    };
    let verdict = release::run(&held.module, held.settings);
    wanted(held, judge_answer(&file, &answer, verdict))
}

/// What a judgement says, where it is one that the entry allows.
fn wanted(held: &Held, judgement: Judgement) -> Result<Agreed, String> {
    match (judgement, held.wanted) {
        (
            Judgement::EqualReports(_) | Judgement::EqualRefusals { .. },
            Wanted::Equal | Wanted::EqualIfComparable,
        ) => Ok(Agreed::Both),
        (Judgement::Explained(found, difference), Wanted::Explained(rule)) if found == rule => {
            Ok(Agreed::Explained(rule, difference))
        }
        (Judgement::NotComparable(_) | Judgement::NotCompared(_), Wanted::EqualIfComparable) => {
            Ok(Agreed::Reference)
        }
        (judgement, _) => Err(unwanted(judgement)),
    }
}

fn unwanted(judgement: Judgement) -> String {
    match judgement {
        Judgement::EqualReports(_) | Judgement::EqualRefusals { .. } => {
            "the release agrees, where a difference was said".to_string()
        }
        Judgement::Explained(rule, difference) => format!("{rule}: {difference}"),
        Judgement::Unexplained(difference, _) => format!("unexplained: {difference}"),
        Judgement::NotMade => "it has no module file".to_string(),
        Judgement::NotCompared(number) => format!("refusal {number} isn't compared"),
        Judgement::NotComparable(reason) => reason.to_string(),
    }
}

impl fmt::Display for Agreed {
    fn fmt(&self, f: &mut fmt::Formatter<'_>) -> fmt::Result {
        match self {
            Agreed::Reference => f.write_str("reference"),
            Agreed::Both => f.write_str("reference and release"),
            Agreed::Explained(rule, _) => {
                let name = match rule {
                    Rule::SevenElsewhere => "D2",
                };
                write!(f, "reference; {name}")
            }
        }
    }
}

#[cfg(test)]
mod tests {
    use super::*;
    use crate::entries::all;
    use reference::{Answer, Refusal};

    /// Every byte of some reports and every value of all refusals is held against the release, not against the
    /// reference alone.
    #[test]
    fn the_release_finds_a_changed_answer() {
        let mut changed = 0;
        for entry in all() {
            if !entry.name.starts_with("wgsl-") {
                continue;
            }
            let wrong = match analyse(&entry.file) {
                Answer::Report(_) if !entry.name.starts_with("wgsl-chain-") => continue,
                Answer::Report(report) => changed_reports(&report),
                Answer::Refused(refusal) => changed_refusals(refusal),
            };
            for answer in wrong {
                assert!(
                    agreed(&entry, &Expected::of(answer.clone())).is_err(),
                    "{}: {answer:?}",
                    entry.name
                );
                changed += 1;
            }
        }
        assert!(changed > 1000, "only {changed} were tried");
    }

    /// The lowest bit of each byte in turn; in a mask of requirements that is the barrier, which is compared.
    fn changed_reports(report: &[u8]) -> Vec<Answer> {
        (0..report.len())
            .map(|place| {
                let mut wrong = report.to_vec();
                wrong[place] ^= 1;
                Answer::Report(wrong)
            })
            .collect()
    }

    fn changed_refusals(right: Refusal) -> Vec<Answer> {
        let mut wrong = [right; 5];
        wrong[0].number ^= 1;
        wrong[1].function ^= 1;
        wrong[2].place ^= 1;
        wrong[3].cause ^= 1;
        wrong[4].value ^= 1;
        wrong.map(Answer::Refused).to_vec()
    }

    /// A difference is taken only where the entry names its rule, and then it has to be there.
    #[test]
    fn a_difference_has_to_be_said() {
        for mut entry in all() {
            let Some(held) = entry.held.as_mut() else {
                continue;
            };
            let said = held.wanted;
            held.wanted = match said {
                Wanted::Explained(Rule::SevenElsewhere) => Wanted::Equal,
                Wanted::Equal => Wanted::Explained(Rule::SevenElsewhere),
                Wanted::EqualIfComparable => continue,
            };
            let expected = Expected::of(analyse(&entry.file));
            assert!(agreed(&entry, &expected).is_err(), "{}", entry.name);
        }
    }
}
