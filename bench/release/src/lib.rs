//! What the released crate, naga 30.0.1, answers on a module, and how that compares with an answer of
//! document 01 (section 14).

mod comparison;
mod report;
mod run;
mod serialized;
mod summary;
mod trace;

pub use comparison::{compare, Comparison, Difference};
pub use report::read_report;
pub use run::{run, validator, Reason, Verdict};
pub use summary::{End, ExpressionSummary, Summary};
pub use trace::{operands, trace, CALL, IMAGE_SAMPLE};
