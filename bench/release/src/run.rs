//! The released analyzer on a module.
//!
//! `Validator::validate` is the only public way to it. With the flag `CONTROL_FLOW_UNIFORMITY` alone, or
//! with none, the following is still checked whatever the flags, in this order:
//!
//! 1. `validate_module_handles`: every handle and range is in its arena and depends on earlier ones;
//! 2. the layouter, on every type;
//! 3. `validate_type`, on every type; parts of it ask for capabilities;
//! 4. the type of every global expression;
//! 5. `validate_global_var`: the type and capabilities that a variable's space wants, no global in space
//!    Function, initialisers that are constant and of the right type;
//! 6. function by function: **`process_function`, the analyzer**; then the types and initialisers of local
//!    variables, the types of arguments and result, and no bindings on them;
//! 7. entry point by entry point: that name and stage are new; stage capabilities, workgroup size; then all of 6
//!    (bindings are allowed here); then payloads, arguments and result as an interface, at most one Immediate
//!    global in use, and no use of a global that its space forbids.
//!
//! All capabilities are given but the four that 01 has bits for, so that a capability is never missing
//! outside the analyzer. What any other check refuses is not comparable (01, 14.2).
//!
//! After `process_function` a `FunctionInfo` is changed in three ways, none of which is compared: the stages
//! where it may run, whether it blends from two sources, and, in mesh and task entry points alone,
//! uses of the payload and the mesh output. The last is why 01 leaves out mesh and task entry points.

use crate::serialized;
use crate::summary::Summary;
use convert::Settings;
use naga::valid::{
    Capabilities, EntryPointError, ExpressionError, FunctionError, ValidationError,
    ValidationFlags, Validator,
};
use naga::{Handle, Module, ShaderStage};
use reference::Refusal;
use std::fmt;
use std::panic::{catch_unwind, AssertUnwindSafe};

/// What the release answers.
#[derive(Clone, Debug)]
pub enum Verdict {
    Accepted(Vec<Summary>),
    /// The release's error as a refusal of 01: 7, 9 or 11.
    Refused(Refusal),
    NotComparable(Reason),
}

/// Why an answer of the release can't be held against 01 (01, 14.2).
#[derive(Clone, Copy, Debug, PartialEq, Eq, PartialOrd, Ord)]
pub enum Reason {
    DiagnosticFilter,
    MeshOrTaskEntry,
    /// The analyzer could not resolve the type of an expression.
    Type,
    /// Refused before or after the analyzer.
    OutsideAnalyzer,
    Panicked,
    /// The release's own text was not what this bench knows.
    Unreadable,
}

/// The four capabilities that 01 has bits for.
const INDEXING: Capabilities = Capabilities::TEXTURE_AND_SAMPLER_BINDING_ARRAY_NON_UNIFORM_INDEXING
    .union(Capabilities::STORAGE_TEXTURE_BINDING_ARRAY_NON_UNIFORM_INDEXING)
    .union(Capabilities::BUFFER_BINDING_ARRAY_NON_UNIFORM_INDEXING)
    .union(Capabilities::STORAGE_BUFFER_BINDING_ARRAY_NON_UNIFORM_INDEXING);

/// A validator that looks at what the settings say and at nothing else that it can be kept from.
pub fn validator(settings: Settings) -> Validator {
    let flags = if settings.check_control_flow {
        ValidationFlags::CONTROL_FLOW_UNIFORMITY
    } else {
        ValidationFlags::empty()
    };
    let capabilities = Capabilities::all()
        .difference(INDEXING)
        .union(settings.capabilities);
    Validator::new(flags, capabilities)
}

/// Runs the release on a module.
pub fn run(module: &Module, settings: Settings) -> Verdict {
    if let Some(reason) = left_out(module) {
        return Verdict::NotComparable(reason);
    }
    // An Access into a binding array of, say, acceleration structures meets `unreachable!()` there.
    let Ok(result) = catch_unwind(AssertUnwindSafe(|| {
        validator(settings).validate(module).map_err(Box::new)
    })) else {
        return Verdict::NotComparable(Reason::Panicked);
    };
    match result {
        Ok(info) => match serialized::summaries(&info) {
            Ok(summaries) => Verdict::Accepted(summaries),
            Err(_) => Verdict::NotComparable(Reason::Unreadable),
        },
        Err(error) => refused(module, error.into_inner()),
    }
}

/// What 01 leaves out of the comparison before anything is run (01, 14.2).
fn left_out(module: &Module) -> Option<Reason> {
    if !module.diagnostic_filters.is_empty() {
        return Some(Reason::DiagnosticFilter);
    }
    module
        .entry_points
        .iter()
        .any(|entry| matches!(entry.stage, ShaderStage::Mesh | ShaderStage::Task))
        .then_some(Reason::MeshOrTaskEntry)
}

fn refused(module: &Module, error: ValidationError) -> Verdict {
    let (function, error) = match error {
        ValidationError::Function { handle, source, .. } => (handle.index(), source),
        ValidationError::EntryPoint {
            stage,
            name,
            source: EntryPointError::Function(source),
        } => {
            // A second entry point of that name and stage would have been refused before its function.
            let entry = module
                .entry_points
                .iter()
                .position(|entry| entry.stage == stage && entry.name == name);
            let Some(entry) = entry else {
                return Verdict::NotComparable(Reason::Unreadable);
            };
            (module.functions.len() + entry, source)
        }
        _ => return Verdict::NotComparable(Reason::OutsideAnalyzer),
    };
    match refusal(error) {
        Ok(refusal) => Verdict::Refused(Refusal {
            function: function as u16,
            ..refusal
        }),
        Err(reason) => Verdict::NotComparable(reason),
    }
}

/// An error of the analyzer as a refusal, its function yet to be set.
fn refusal(error: FunctionError) -> Result<Refusal, Reason> {
    let at = |number: u8, expression: Handle<naga::Expression>| Refusal {
        number,
        place: expression.index() as u16,
        ..Refusal::default()
    };
    match error {
        FunctionError::Expression { handle, source } => match source {
            ExpressionError::ExpectedGlobalOrArgument => Ok(at(7, handle)),
            ExpressionError::MissingCapabilities(_) => Ok(at(9, handle)),
            ExpressionError::Type(_) => Err(Reason::Type),
            _ => Err(Reason::OutsideAnalyzer),
        },
        FunctionError::NonUniformControlFlow(_, expression, disruptor) => {
            let (cause, value) = cause(&format!("{disruptor:?}")).ok_or(Reason::Unreadable)?;
            Ok(Refusal {
                cause,
                value,
                ..at(11, expression)
            })
        }
        _ => Err(Reason::OutsideAnalyzer),
    }
}

/// Cause and its number (01, 8.1) from a disruptor's debug text: naga doesn't export the type.
fn cause(disruptor: &str) -> Option<(u8, u16)> {
    match disruptor {
        "Return" => Some((2, 0)),
        "Discard" => Some((3, 0)),
        _ => {
            let index = disruptor.strip_prefix("Expression([")?.strip_suffix("])")?;
            Some((1, index.parse().ok()?))
        }
    }
}

impl fmt::Display for Reason {
    fn fmt(&self, f: &mut fmt::Formatter<'_>) -> fmt::Result {
        f.write_str(match self {
            Reason::DiagnosticFilter => "diagnostic filters",
            Reason::MeshOrTaskEntry => "mesh or task entry point",
            Reason::Type => "refused by the release for a type",
            Reason::OutsideAnalyzer => "refused by the release outside its analyzer",
            Reason::Panicked => "the release panicked",
            Reason::Unreadable => "the release's answer can't be read",
        })
    }
}

#[cfg(test)]
mod tests {
    use super::*;

    #[test]
    fn a_disruptor_is_read_from_its_text() {
        assert_eq!(cause("Return"), Some((2, 0)));
        assert_eq!(cause("Discard"), Some((3, 0)));
        assert_eq!(cause("Expression([17])"), Some((1, 17)));
        assert_eq!(cause("Expression(17)"), None);
    }
}
