//! From a naga module to a module file of document 01.
//!
//! The file holds what the released analyzer looks at, record for record: the functions in arena
//! order and then the entry points, since these see all functions (01, 6.3). An expression or global
//! keeps its index, so a number in a report is a handle's index in the module.
//!
//! The module's handles must be sound, as every front end gives them.

mod codes;
mod error;
mod expressions;
mod source;
mod statements;

pub use error::{Error, FunctionName, Part};
pub use source::{capabilities_named, read_shader, SourceError};

use files::{ModuleFile, Sheet};
use naga::proc::{ResolveContext, TypeResolution};
use naga::valid::Capabilities;
use naga::{Function, Handle, Module};

/// What a module is analysed under. The release takes the same two from its `Validator`.
#[derive(Clone, Copy, Debug)]
pub struct Settings {
    /// Only the four that allow non-uniform indexing reach the file (01, 1.8).
    pub capabilities: Capabilities,
    /// Whether refusal 11 can come: one flag for all functions, as the release has it.
    pub check_control_flow: bool,
}

/// The module as a file, or what 01 has no room or no record for.
pub fn module_file(module: &Module, settings: Settings) -> Result<ModuleFile, Error> {
    let entries = module.entry_points.len();
    Part::Globals.check(module.global_variables.len(), None)?;
    Part::Functions.check(module.functions.len() + entries, None)?;
    let file = ModuleFile {
        capabilities: codes::capabilities(settings.capabilities),
        spaces: module
            .global_variables
            .iter()
            .map(|(_, global)| codes::space(global.space))
            .collect(),
        sheets: all_functions(module)
            .map(|(name, function)| sheet(module, function, &name, settings))
            .collect::<Result<_, _>>()?,
    };
    Part::Bytes.check(file.encode().len(), None)?;
    Ok(file)
}

/// Every function with its name, in the order in which a module file has them (01, 6.3).
pub fn all_functions(module: &Module) -> impl Iterator<Item = (FunctionName, &Function)> {
    let functions = module.functions.iter().map(|(_, function)| {
        let name = function.name.clone().unwrap_or_default();
        (name, false, function)
    });
    let entries = module
        .entry_points
        .iter()
        .map(|entry| (entry.name.clone(), true, &entry.function));
    functions
        .chain(entries)
        .enumerate()
        .map(|(number, (name, entry_point, function))| {
            let name = FunctionName {
                number,
                name,
                entry_point,
            };
            (name, function)
        })
}

fn sheet(
    module: &Module,
    function: &Function,
    name: &FunctionName,
    settings: Settings,
) -> Result<Sheet, Error> {
    Part::Arguments.check(function.arguments.len(), Some(name))?;
    Part::Expressions.check(function.expressions.len(), Some(name))?;
    Part::Named.check(function.named_expressions.len(), Some(name))?;

    let mut sheet = Sheet {
        flag: u8::from(settings.check_control_flow),
        arguments: function
            .arguments
            .iter()
            .map(|argument| codes::argument(argument.binding.as_ref()))
            .collect(),
        initialisers: function
            .local_variables
            .iter()
            .filter_map(|(_, variable)| variable.init.map(number))
            .collect(),
        named: function
            .named_expressions
            .keys()
            .copied()
            .map(number)
            .collect(),
        ..Sheet::default()
    };
    let types = types(module, function, name)?;
    for (_, expression) in function.expressions.iter() {
        expressions::add(&mut sheet, expression, |base| {
            codes::access(types[base.index()].inner_with(&module.types), &module.types)
        });
    }
    statements::add_block(&mut sheet, &function.body).map_err(|statement| Error::Statement {
        function: name.clone(),
        statement,
    })?;

    Part::Initialisers.check(sheet.initialisers.len(), Some(name))?;
    Part::Operands.check(sheet.operands.len(), Some(name))?;
    Part::Statements.check(sheet.statements.len(), Some(name))?;
    Ok(sheet)
}

/// The type of every expression, found as the release finds it: what an Access reaches into (01, 4.1)
/// depends on it.
fn types(
    module: &Module,
    function: &Function,
    name: &FunctionName,
) -> Result<Vec<TypeResolution>, Error> {
    let context =
        ResolveContext::with_locals(module, &function.local_variables, &function.arguments);
    let mut types: Vec<TypeResolution> = Vec::with_capacity(function.expressions.len());
    for (handle, expression) in function.expressions.iter() {
        let resolved = context
            .resolve(expression, |earlier| Ok(&types[earlier.index()]))
            .map_err(|source| Error::Type {
                function: name.clone(),
                expression: handle.index(),
                source,
            })?;
        types.push(resolved);
    }
    Ok(types)
}

/// A handle as a number of the file. It fits: every arena's size is checked against its limit first.
fn number<T>(handle: Handle<T>) -> u16 {
    handle.index() as u16
}
