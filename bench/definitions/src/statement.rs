//! A module and its answer, written in antt.

use std::fmt::Write;

use reference::{Answer, Refusal};

/// What every file of statements begins with.
pub const HEAD: &str = "\
use Rattle.std.specs.Prelude.{ℕ, List, [], ◌∷◌, ◌≡◌, refl}
use Rattle.definitions.specs.Limits.{version_1}
use Rattle.definitions.specs.Checks.{Checked, fine, refused}
use Rattle.definitions.specs.Analyse.{analyse}
use Rattle.definitions.specs.Run.{run}
";

/// The statement that the definitions give this answer on this module, proved by computing.
pub fn statement(case: usize, module: &[u8], answer: &Answer) -> String {
    let name = name(case);
    let module = list(module);
    let answer = match answer {
        Answer::Report(report) => format!("fine {}", list(report)),
        Answer::Refused(refusal) => format!("refused {}", record(refusal)),
    };
    format!("\n{name} : analyse version_1 {module} ≡ {answer}\nunfolding run\n{name} = refl\n")
}

/// The name under which the prover speaks of a case.
pub fn name(case: usize) -> String {
    format!("case_{case}")
}

fn list(bytes: &[u8]) -> String {
    let mut text = String::from("(");
    for byte in bytes {
        let _ = write!(text, "{byte} ∷ ");
    }
    text.push_str("[])");
    text
}

fn record(refusal: &Refusal) -> String {
    format!(
        "(record {{ number = {}; function = {}; place = {}; cause = {}; cause_number = {} }})",
        refusal.number, refusal.function, refusal.place, refusal.cause, refusal.value
    )
}
