//! A whole run: module after module, what they came to, and the smallest difference that nothing explains.

use crate::cases::{shader_files, Case};
use crate::judgement::{judge, Analyse, Judgement};
use crate::tally::Tally;
use crate::witness::Witness;
use std::path::Path;

/// How often progress is said.
const PROGRESS: usize = 10_000;

/// What a run has seen.
pub struct Run<'a> {
    analyse: Analyse<'a>,
    tally: Tally,
    /// The smallest unexplained difference.
    smallest: Option<Witness>,
}

impl<'a> Run<'a> {
    pub fn new(analyse: Analyse<'a>) -> Self {
        Run {
            analyse,
            tally: Tally::default(),
            smallest: None,
        }
    }

    /// Takes every shader file of a folder.
    pub fn take_shaders(&mut self, folder: &Path) -> Result<(), String> {
        for path in shader_files(folder)? {
            match Case::from_file(&path) {
                Ok(case) => self.take(&case),
                Err(message) => {
                    eprintln!("{}: {message}", path.display());
                    self.tally.unread += 1;
                }
            }
        }
        Ok(())
    }

    /// Takes generated modules, until `count` of them were comparable.
    pub fn take_generated(&mut self, count: usize, seed: u64) {
        self.take_seeds(count, seed, Case::from_seed);
    }

    /// The same of those that are mostly loops.
    pub fn take_loops(&mut self, count: usize, seed: u64) {
        self.take_seeds(count, seed, Case::of_loops);
    }

    fn take_seeds(&mut self, count: usize, mut seed: u64, case: fn(u64) -> Result<Case, String>) {
        let wanted = self.tally.comparable() + count;
        while self.tally.comparable() < wanted {
            match case(seed) {
                Ok(case) => self.take(&case),
                Err(message) => {
                    eprintln!("seed {seed}: {message}");
                    self.tally.unread += 1;
                }
            }
            seed = seed.wrapping_add(1);
        }
    }

    /// Prints the counts, and keeps the smallest difference for a person; whether none was left unexplained.
    pub fn finish(self) -> Result<bool, String> {
        println!("{}", self.tally);
        let Some(witness) = self.smallest else {
            return Ok(true);
        };
        let folder = witness
            .shrunk(self.analyse)
            .write(self.analyse)
            .map_err(|error| format!("the difference can't be written: {error}"))?;
        eprintln!("the smallest difference is in {}", folder.display());
        Ok(false)
    }

    fn take(&mut self, case: &Case) {
        let judgement = judge(&case.module, case.settings, self.analyse);
        self.tally.add(&judgement);
        if let Judgement::Unexplained(difference, length) = judgement {
            if self
                .smallest
                .as_ref()
                .is_none_or(|known| length < known.length)
            {
                eprintln!("{}: {difference}", case.origin);
                self.smallest = Some(Witness::new(case, length));
            }
        }
        if self.tally.made().is_multiple_of(PROGRESS) {
            eprintln!(
                "{} made, {} comparable, {} unexplained",
                self.tally.made(),
                self.tally.comparable(),
                self.tally.unexplained
            );
        }
    }
}

/// Panics inside naga are caught and counted, so only others are shown.
pub fn keep_naga_quiet() {
    let show = std::panic::take_hook();
    std::panic::set_hook(Box::new(move |panic| {
        let in_naga = panic
            .location()
            .is_some_and(|location| location.file().contains("/naga-30"));
        if !in_naga {
            show(panic);
        }
    }));
}
