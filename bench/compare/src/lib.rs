//! Answers held against the released crate, over modules from a seed and over real shaders.

mod cases;
mod chains;
mod judgement;
mod run;
mod shrink;
mod tally;
mod witness;

pub use cases::{shader_files, Case, Origin};
pub use judgement::{judge, judge_answer, reference, Analyse, Found, Judgement, Rule};
pub use run::{keep_naga_quiet, Run};
