//! What a run counts, as a person reads it.

use crate::judgement::{Found, Judgement, Rule};
use release::{Reason, Summary};
use std::collections::BTreeMap;
use std::fmt;

/// Counts of modules.
#[derive(Default)]
pub struct Tally {
    /// Shaders and programs that naga's front ends don't take.
    pub unread: usize,
    pub unexplained: usize,
    equal_reports: usize,
    /// By number and cause.
    equal_refusals: BTreeMap<(u8, u8), usize>,
    explained: BTreeMap<Rule, usize>,
    not_made: usize,
    not_compared: BTreeMap<u8, usize>,
    not_comparable: BTreeMap<Reason, usize>,
    reached: Reached,
}

/// How many of the modules with equal reports have something in them.
#[derive(Default)]
struct Reached {
    pairs: usize,
    /// A pair of globals that no chain of fewer than two calls gives.
    far_pairs: usize,
    mixed: usize,
    may_kill: usize,
    barrier: usize,
    cooperative: usize,
    origin: usize,
}

impl Tally {
    pub fn add(&mut self, judgement: &Judgement) {
        match judgement {
            Judgement::EqualReports(found) => {
                self.equal_reports += 1;
                self.reached.add(found);
            }
            Judgement::EqualRefusals { number, cause } => {
                *self.equal_refusals.entry((*number, *cause)).or_default() += 1;
            }
            Judgement::Explained(rule, _) => *self.explained.entry(*rule).or_default() += 1,
            Judgement::Unexplained(..) => self.unexplained += 1,
            Judgement::NotMade => self.not_made += 1,
            Judgement::NotCompared(number) => {
                *self.not_compared.entry(*number).or_default() += 1;
            }
            Judgement::NotComparable(reason) => {
                *self.not_comparable.entry(*reason).or_default() += 1;
            }
        }
    }

    fn equal(&self) -> usize {
        self.equal_reports + sum(&self.equal_refusals)
    }

    /// Modules whose answers were held against each other.
    pub fn comparable(&self) -> usize {
        self.equal() + sum(&self.explained) + self.unexplained
    }

    /// Modules that were made or read at all.
    pub fn made(&self) -> usize {
        self.comparable() + self.not_made + sum(&self.not_compared) + sum(&self.not_comparable)
    }
}

impl Reached {
    fn add(&mut self, found: &Found) {
        let any = |has: fn(&Summary) -> bool| usize::from(found.summaries.iter().any(has));
        self.pairs += any(|summary| !summary.pairs.is_empty());
        self.far_pairs += usize::from(found.longest_chain >= 2);
        self.mixed += any(|summary| !summary.mixed.is_empty());
        self.may_kill += any(|summary| summary.may_kill);
        self.barrier += any(|summary| summary.requirements & 1 != 0);
        self.cooperative += any(|summary| summary.requirements & 8 != 0);
        self.origin += any(|summary| summary.origin.is_some());
    }
}

fn sum<K>(counts: &BTreeMap<K, usize>) -> usize {
    counts.values().sum()
}

impl fmt::Display for Tally {
    fn fmt(&self, f: &mut fmt::Formatter<'_>) -> fmt::Result {
        let mut line = |indent: usize, what: &str, count: usize| {
            let width = 58 - indent;
            writeln!(f, "{:indent$}{what:<width$}{count:>9}", "")
        };
        line(0, "made", self.made())?;
        line(2, "not read by naga's front end, besides", self.unread)?;
        line(0, "comparable", self.comparable())?;
        line(2, "equal", self.equal())?;
        line(4, "reports", self.equal_reports)?;
        line(6, "with pairs", self.reached.pairs)?;
        line(
            6,
            "with a pair through two calls or more",
            self.reached.far_pairs,
        )?;
        line(6, "with mixed pairs", self.reached.mixed)?;
        line(6, "with a function that may kill", self.reached.may_kill)?;
        line(6, "with a barrier requirement", self.reached.barrier)?;
        line(
            6,
            "with a cooperative requirement",
            self.reached.cooperative,
        )?;
        line(6, "with a function's origin", self.reached.origin)?;
        for (&(number, cause), &count) in &self.equal_refusals {
            let cause = [
                "",
                ", cause expression",
                ", cause Return",
                ", cause Discard",
            ]
            .get(usize::from(cause))
            .unwrap_or(&", cause unknown");
            line(4, &format!("refused with {number}{cause}"), count)?;
        }
        line(2, "explained", sum(&self.explained))?;
        for (rule, &count) in &self.explained {
            line(4, &rule.to_string(), count)?;
        }
        line(2, "unexplained", self.unexplained)?;
        line(0, "not comparable", self.made() - self.comparable())?;
        line(2, "outside document 01's limits or kinds", self.not_made)?;
        for (number, &count) in &self.not_compared {
            line(
                2,
                &format!("refused with {number}, which isn't compared"),
                count,
            )?;
        }
        for (reason, &count) in &self.not_comparable {
            line(2, &reason.to_string(), count)?;
        }
        Ok(())
    }
}

impl fmt::Display for Rule {
    fn fmt(&self, f: &mut fmt::Formatter<'_>) -> fmt::Result {
        f.write_str(match self {
            Rule::SevenElsewhere => "D2: place of refusal 7 in a Call",
        })
    }
}
