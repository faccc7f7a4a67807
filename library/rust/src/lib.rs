//! Analyses shader modules: which globals a function uses and how, which images meet which samplers, and where control
//! flow stops being uniform.
//!
//! A *module file* goes in; a [`Report`] or one [`Refusal`] comes out. Both are described in `docs/01-scope.md`, whose sections
//! are cited here as "01, 7.2". The work is done by a library that is proved to give, for any bytes at all, the answer that
//! this document decides; this crate lends it memory and reads its answers.
//!
//! ```
//! use fiuraccju::Analyzer;
//!
//! let module = std::fs::read("../../examples/wall/wall.module")?;
//! let mut analyzer = Analyzer::new();
//! let report = analyzer.analyse(&module)?;
//! for function in report.functions() {
//!     for pair in function.pairs() {
//!         println!("{} samples {} with {}", function.index(), pair.image, pair.sampler);
//!     }
//! }
//! # let show = report.functions().last().unwrap();
//! # assert_eq!(show.pairs().count(), 1);
//! # Ok::<(), Box<dyn std::error::Error>>(())
//! ```

mod analyzer;
mod flags;
mod index;
mod library;
mod refusal;
mod report;

pub use analyzer::Analyzer;
pub use flags::{Requirements, Uses};
pub use index::{ArgumentIndex, ExpressionIndex, FunctionIndex, GlobalIndex};
pub use refusal::{Cause, Refusal, RefusalKind};
pub use report::{
    End, ExpressionReport, FunctionReport, Functions, Malformed, MixedPair, Pair, Report,
    MOST_BYTES,
};
