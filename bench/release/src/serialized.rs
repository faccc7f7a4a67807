//! The fields of naga's `ModuleInfo`, read through its `serialize` feature.
//!
//! Two of the fields compared, `sampling` and `assignable_global`, are private in naga and have no
//! other way out. So all are taken from the same text.

use crate::summary::{End, ExpressionSummary, Summary};
use serde::Deserialize;

/// naga's `ModuleInfo`, as far as it is compared.
#[derive(Deserialize)]
struct Module {
    functions: Vec<Function>,
    entry_points: Vec<Function>,
}

/// naga's `FunctionInfo`. Handles are indices from 0, flags are text such as `READ | WRITE`.
#[derive(Deserialize)]
struct Function {
    uniformity: Uniformity,
    may_kill: bool,
    sampling_set: Vec<Pair<u16>>,
    sampling: Vec<Pair<GlobalOrArgument>>,
    global_uses: Vec<String>,
    expressions: Vec<Expression>,
}

#[derive(Deserialize)]
struct Uniformity {
    non_uniform_result: Option<u16>,
    requirements: String,
}

#[derive(Deserialize)]
struct Pair<T> {
    image: T,
    sampler: T,
}

#[derive(Deserialize)]
enum GlobalOrArgument {
    Global(u16),
    Argument(u16),
}

#[derive(Deserialize)]
struct Expression {
    uniformity: Uniformity,
    ref_count: u32,
    assignable_global: Option<u16>,
}

/// The functions and then the entry points of a `ModuleInfo`, or why they can't be read.
pub fn summaries(info: &naga::valid::ModuleInfo) -> Result<Vec<Summary>, String> {
    let text = serde_json::to_string(info).map_err(|error| error.to_string())?;
    let module: Module = serde_json::from_str(&text).map_err(|error| error.to_string())?;
    module
        .functions
        .iter()
        .chain(&module.entry_points)
        .map(summary)
        .collect()
}

fn summary(function: &Function) -> Result<Summary, String> {
    let mut pairs: Vec<_> = function
        .sampling_set
        .iter()
        .map(|pair| (pair.image, pair.sampler))
        .collect();
    pairs.sort_unstable();
    let mut mixed: Vec<_> = function
        .sampling
        .iter()
        .map(|pair| (end(&pair.image), end(&pair.sampler)))
        .collect();
    mixed.sort_unstable();
    Ok(Summary {
        origin: function.uniformity.non_uniform_result,
        requirements: mask(&function.uniformity.requirements, requirement)?,
        may_kill: function.may_kill,
        uses: function
            .global_uses
            .iter()
            .map(|flags| mask(flags, global_use))
            .collect::<Result<_, _>>()?,
        pairs,
        mixed,
        expressions: function
            .expressions
            .iter()
            .map(expression)
            .collect::<Result<_, _>>()?,
    })
}

fn expression(expression: &Expression) -> Result<ExpressionSummary, String> {
    Ok(ExpressionSummary {
        origin: expression.uniformity.non_uniform_result,
        requirements: mask(&expression.uniformity.requirements, requirement)?,
        count: expression.ref_count,
        assignable: expression.assignable_global,
    })
}

fn end(end: &GlobalOrArgument) -> End {
    match *end {
        GlobalOrArgument::Global(number) => End::Global(number),
        GlobalOrArgument::Argument(number) => End::Argument(number),
    }
}

/// The mask of a text of flags, the empty text having none.
fn mask(flags: &str, bit: impl Fn(&str) -> Option<u8>) -> Result<u8, String> {
    flags
        .split(" | ")
        .filter(|name| !name.is_empty())
        .try_fold(0, |mask, name| match bit(name) {
            Some(bit) => Ok(mask | bit),
            None => Err(format!("{name} is no known flag")),
        })
}

/// 01, 3.6. The two others are zero in the release and so have no name in its text.
fn requirement(name: &str) -> Option<u8> {
    match name {
        "WORK_GROUP_BARRIER" => Some(1),
        "COOP_OPS" => Some(8),
        _ => None,
    }
}

/// 01, 7.3.
fn global_use(name: &str) -> Option<u8> {
    match name {
        "READ" => Some(1),
        "WRITE" => Some(2),
        "QUERY" => Some(4),
        "ATOMIC" => Some(8),
        _ => None,
    }
}

#[cfg(test)]
mod tests {
    use super::*;

    #[test]
    fn flags_are_read_from_their_text() {
        assert_eq!(mask("", global_use), Ok(0));
        assert_eq!(mask("READ | QUERY", global_use), Ok(5));
        assert_eq!(mask("WORK_GROUP_BARRIER | COOP_OPS", requirement), Ok(9));
        assert!(mask("READ | 0x10", global_use).is_err());
    }
}
