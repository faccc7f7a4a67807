//! Section 6: the steps of a function, and the functions of a module in turn.

use crate::expressions::{ExpressionInfo, Use};
use crate::file::*;
use crate::pairs::PairLists;
use crate::report::Writer;
use crate::statements::Outcome;
use crate::Refusal;

/// What is known of a function: what its section in the report says (01, 6.2 and 7.2).
#[derive(Default)]
pub struct Summary {
    pub outcome: Outcome,
    /// One for each global.
    pub uses: Vec<Use>,
    pub lists: PairLists,
    pub expressions: Vec<ExpressionInfo>,
}

/// A function while its steps are taken. Expressions, pairs and statements each add their own methods.
pub struct Function<'a> {
    pub module: &'a Module,
    pub sheet: &'a Sheet,
    pub number: usize,
    /// The summaries of the lower functions: the only ones that may be called (01, 6.3).
    pub lower: &'a [Summary],
    pub summary: Summary,
}

/// The report on a module whose form is right, or the first refusal of its rules (01, 6.3 and 6.4).
pub fn analyse_module(module: &Module) -> Result<Vec<u8>, Refusal> {
    let mut writer = Writer::new(module.spaces.len(), module.sheets.len());
    let mut summaries = Vec::with_capacity(module.sheets.len());
    for (number, sheet) in module.sheets.iter().enumerate() {
        let function = Function {
            module,
            sheet,
            number,
            lower: &summaries,
            summary: Summary {
                uses: vec![Use::default(); module.spaces.len()],
                ..Summary::default()
            },
        };
        let summary = function.steps()?;
        if !writer.has_room_for(&summary) {
            return Err(Refusal::at(14, number, 0));
        }
        writer.section(&summary);
        summaries.push(summary);
    }
    Ok(writer.finish())
}

impl Function<'_> {
    /// The steps in their order: expressions, initialisers, statements, named (01, 6.1).
    fn steps(mut self) -> Result<Summary, Refusal> {
        for place in 0..self.sheet.expressions.len() {
            self.expression(place)?;
        }
        for &initialiser in &self.sheet.initialisers {
            self.refer(initialiser, Use::READ);
        }
        self.summary.outcome = self.statements()?;
        for &named in &self.sheet.named {
            self.name(named);
        }
        Ok(self.summary)
    }

    /// A named expression whose assignable global has no use at all gives it QUERY (01, 6.1).
    fn name(&mut self, named: Expression) {
        if let Some(Global(global)) = self.summary.expressions[named.index()].assignable {
            let uses = &mut self.summary.uses[usize::from(global)];
            if uses.is_empty() {
                *uses = Use::QUERY;
            }
        }
    }
}
