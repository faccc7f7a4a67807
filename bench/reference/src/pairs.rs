//! Sections 4.3 to 4.6: tracing ends, and the two pair lists.

use std::collections::BTreeSet;

use crate::file::*;
use crate::functions::{Function, Summary};
use crate::Refusal;

/// Most entries of each list (01, 4.4).
const MOST_PAIRS: usize = 256;

/// One end of a sampling (01, 4.3). The derived order is the paper's: globals before arguments, then by
/// number (01, 4.4).
#[derive(Clone, Copy, Debug, PartialEq, Eq, PartialOrd, Ord)]
pub enum End {
    Global(Global),
    Argument(Argument),
}

/// A function's pairs and mixed pairs; each list ascends by image, then by sampler (01, 4.4).
#[derive(Clone, Debug, Default)]
pub struct PairLists {
    pub pairs: BTreeSet<(Global, Global)>,
    pub mixed: BTreeSet<(End, End)>,
}

/// A pair would have been the 257th of its list.
struct Full;

impl PairLists {
    /// Enters a pair into the list that its ends say.
    fn enter(&mut self, image: End, sampler: End) -> Result<(), Full> {
        match (image, sampler) {
            (End::Global(image), End::Global(sampler)) => enter(&mut self.pairs, (image, sampler)),
            ends => enter(&mut self.mixed, ends),
        }
    }
}

/// Enters a pair into a list, where it stands once.
fn enter<Pair: Ord>(list: &mut BTreeSet<Pair>, pair: Pair) -> Result<(), Full> {
    if list.len() == MOST_PAIRS && !list.contains(&pair) {
        return Err(Full);
    }
    list.insert(pair);
    Ok(())
}

impl Function<'_> {
    /// What an expression traces to, if it can be traced (01, 4.3).
    fn trace(&self, expression: Expression) -> Option<End> {
        let record = self.sheet.expressions[expression.index()];
        match record.kind {
            ExpressionKind::GlobalVariable => Some(End::Global(Global(record.number))),
            ExpressionKind::FunctionArgument => Some(End::Argument(Argument(record.number))),
            ExpressionKind::Access | ExpressionKind::AccessIndex => {
                let base = self.sheet.pool_part(record.part)[0]?;
                self.as_global(base).map(End::Global)
            }
            _ => None,
        }
    }

    /// An ImageSample traces its image, then its sampler, and enters its pair (01, 4.5).
    pub fn sample(&mut self, place: usize, record: ExpressionRecord) -> Result<(), Refusal> {
        let untraced = Refusal::at(7, self.number, place);
        let part = self.sheet.pool_part(record.part);
        let (Some(image), Some(sampler)) = (part[0], part[1]) else {
            unreachable!("image and sampler of an ImageSample are there");
        };
        let image = self.trace(image).ok_or(untraced)?;
        let sampler = self.trace(sampler).ok_or(untraced)?;
        self.summary
            .lists
            .enter(image, sampler)
            .map_err(|Full| Refusal::at(12, self.number, place))
    }

    /// A Call takes the callee's pairs, then its mixed pairs, in ascending order (01, 4.6).
    pub fn take_pairs(
        &mut self,
        place: usize,
        callee: &Summary,
        operands: &[Option<Expression>],
    ) -> Result<(), Refusal> {
        for &(image, sampler) in &callee.lists.pairs {
            self.enter_at_call(place, End::Global(image), End::Global(sampler))?;
        }
        for &(image, sampler) in &callee.lists.mixed {
            let image = self.replaced(image, operands)?;
            let sampler = self.replaced(sampler, operands)?;
            self.enter_at_call(place, image, sampler)?;
        }
        Ok(())
    }

    /// A callee's end as the caller has it: an argument is replaced by what the Call's operand of that
    /// number traces to, else 7 at that operand's expression (01, 4.6).
    fn replaced(&self, end: End, operands: &[Option<Expression>]) -> Result<End, Refusal> {
        let End::Argument(Argument(argument)) = end else {
            return Ok(end);
        };
        let Some(operand) = operands[usize::from(argument)] else {
            unreachable!("no operand of a Call is absent");
        };
        self.trace(operand)
            .ok_or(Refusal::at(7, self.number, operand.index()))
    }

    fn enter_at_call(&mut self, place: usize, image: End, sampler: End) -> Result<(), Refusal> {
        self.summary
            .lists
            .enter(image, sampler)
            .map_err(|Full| Refusal::at(12, self.number, place))
    }
}
