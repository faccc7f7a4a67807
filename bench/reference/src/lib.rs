//! A plain reference of document 01: any bytes to a report or one numbered refusal.
//!
//! There is one module for each section of the paper, and doc comments cite the section that a definition
//! comes from as "01, 3.4". It was written from the paper alone, so that it is a reading of its own
//! against which the analyzer and the released crate can be held.

mod difference;
mod expressions;
mod file;
mod form;
mod functions;
mod lent;
mod pairs;
pub mod report;
mod statements;

pub use difference::{first_difference, Difference};
pub use lent::run;

/// What a run answers (01, sections 8 and 9).
#[derive(Clone, Debug, PartialEq, Eq)]
pub enum Answer {
    /// The report's bytes, without the zeros behind them.
    Report(Vec<u8>),
    Refused(Refusal),
}

/// The numbers that refusals have (01, 8.1). 13 is retired and given to nothing.
pub const NUMBERS: [u8; 14] = [1, 2, 3, 4, 5, 6, 7, 8, 9, 10, 11, 12, 14, 15];

/// One numbered refusal with its values; a field that the paper doesn't name is zero.
#[derive(Clone, Copy, Debug, Default, PartialEq, Eq)]
pub struct Refusal {
    pub number: u8,
    pub function: u16,
    pub place: u16,
    /// 0 none, 1 expression, 2 Return, 3 Discard.
    pub cause: u8,
    /// The expression's number, where the cause is 1.
    pub value: u16,
}

impl Refusal {
    /// A refusal without a cause; all but 11 are made this way (01, 8.1).
    fn at(number: u8, function: usize, place: usize) -> Self {
        Refusal {
            number,
            function: function as u16,
            place: place as u16,
            cause: 0,
            value: 0,
        }
    }
}

/// The answer on a module file, with a report buffer and working memory that are long enough.
pub fn analyse(file: &[u8]) -> Answer {
    let answer = form::check(file).and_then(|module| functions::analyse_module(&module));
    match answer {
        Ok(report) => Answer::Report(report),
        Err(refusal) => Answer::Refused(refusal),
    }
}
