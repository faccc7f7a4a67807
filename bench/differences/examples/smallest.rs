//! Looks for smaller inputs than those of `docs/DIFFERENCES.md`, by trying all of a family in order of size.
//!
//! `smallest d2` takes every module of [`Sampled`] with up to five arguments. It says how many it tried and the
//! smallest that differs.

use compare::{judge, reference, Judgement};
use convert::module_file;
use differences::direct::Sampled;
use differences::SETTINGS;
use naga::Module;

fn main() {
    match std::env::args().nth(1).as_deref() {
        Some("d2") => d2(),
        _ => eprintln!("usage: smallest d2"),
    }
}

/// What was tried at one size.
#[derive(Default)]
struct Seen {
    tried: usize,
    different: usize,
    /// The smallest file that differs, with its module as text.
    smallest: Option<(usize, String)>,
}

impl Seen {
    fn take(&mut self, module: &Module, text: impl FnOnce() -> String) {
        self.tried += 1;
        match judge(module, SETTINGS, &reference) {
            Judgement::EqualReports(_) | Judgement::EqualRefusals { .. } => return,
            Judgement::Explained(..) => self.different += 1,
            _ => panic!("not comparable, or unexplained: {}", text()),
        }
        let length = module_file(module, SETTINGS)
            .expect("it is within the limits")
            .encode()
            .len();
        if self.smallest.as_ref().is_none_or(|known| length < known.0) {
            self.smallest = Some((length, text()));
        }
    }

    fn say(&self, size: &str) {
        println!("{size}: {} tried, {} differ", self.tried, self.different);
        if let Some((length, text)) = &self.smallest {
            println!("  {length} bytes: {text}");
        }
    }
}

fn d2() {
    for arguments in 2..=5 {
        let mut seen = Seen::default();
        for first in 0..arguments {
            for second in first + 1..arguments {
                for pairs in pairs_of([first, second]) {
                    let shape = Sampled {
                        arguments,
                        sampled: [first, second],
                        pairs,
                    };
                    seen.take(&shape.module(), || format!("{shape:?}"));
                }
            }
        }
        seen.say(&format!("{arguments} arguments"));
    }
}

/// Every two samplings of two arguments, in either order.
fn pairs_of(sampled: [u32; 2]) -> Vec<[[u32; 2]; 2]> {
    let pairs: Vec<[u32; 2]> = sampled
        .into_iter()
        .flat_map(|image| sampled.map(|sampler| [image, sampler]))
        .collect();
    pairs
        .iter()
        .flat_map(|&one| pairs.iter().map(move |&other| [one, other]))
        .collect()
}
