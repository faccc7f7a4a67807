//! The list as text, one line an entry: its number, its name, the module file's bytes, the answer, who agreed on
//! it, and what is in it.

use std::fmt::Write;

use reference::{Answer, Refusal};

use crate::agreement::Agreed;
use crate::entries::Entry;
use crate::list::Expected;

pub fn text(entries: &[Entry], listed: &[Expected], agreed: &[Agreed]) -> String {
    let mut out = String::from("number  name  module bytes  answer  agreed by  what is in it\n");
    for (number, ((entry, expected), agreed)) in entries.iter().zip(listed).zip(agreed).enumerate()
    {
        // Writing to a string can't fail.
        let _ = writeln!(
            out,
            "{number:>4}  {:<40}  {:>6}  {:<36}  {:<21}  {}{}",
            entry.name,
            entry.file.len(),
            answer_text(expected),
            agreed.to_string(),
            entry.what,
            difference_text(agreed),
        );
    }
    out
}

fn answer_text(expected: &Expected) -> String {
    match expected {
        Expected::LongReport { length, .. } => format!("report of {length}, as checksum"),
        Expected::Whole(Answer::Report(bytes)) => format!("report of {}", bytes.len()),
        Expected::Whole(Answer::Refused(refusal)) => refusal_text(refusal),
    }
}

fn refusal_text(refusal: &Refusal) -> String {
    let mut text = format!(
        "refusal {} ({}, {})",
        refusal.number, refusal.function, refusal.place
    );
    if refusal.cause != 0 {
        let _ = write!(text, " cause {} {}", refusal.cause, refusal.value);
    }
    text
}

/// Both answers, where they differ.
fn difference_text(agreed: &Agreed) -> String {
    match agreed {
        Agreed::Explained(_, difference) => format!("; {difference}"),
        _ => String::new(),
    }
}
