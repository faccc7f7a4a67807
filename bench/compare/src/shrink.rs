//! Making a module smaller while something stays true of it.

use naga::{Arena, Block, Expression, Function, Literal, Module, Statement};

/// One way to make a module smaller.
#[derive(Clone, Copy)]
enum Edit {
    DropEntryPoint(usize),
    DropLastFunction,
    /// In the function of this number, entry points counted after the functions.
    Inside(usize, FunctionEdit),
}

#[derive(Clone, Copy)]
enum FunctionEdit {
    DropStatement(usize),
    DropNames,
    DropInitialisers,
    DropLastExpression,
    /// Puts a literal in the place of an expression.
    Simplify(usize),
}

/// The smallest module that the edits lead to. `holds` must be true of the module given and decides
/// about each attempt; an edit that leaves a dangling handle is for it to turn down.
pub fn shrink(mut module: Module, holds: impl Fn(&Module) -> bool) -> Module {
    loop {
        let smaller = edits(&module)
            .into_iter()
            .filter_map(|edit| apply(&module, edit))
            .find(&holds);
        match smaller {
            Some(smaller) => module = smaller,
            None => return module,
        }
    }
}

fn edits(module: &Module) -> Vec<Edit> {
    let mut edits: Vec<_> = (0..module.entry_points.len())
        .map(Edit::DropEntryPoint)
        .collect();
    edits.push(Edit::DropLastFunction);
    for number in 0..module.functions.len() + module.entry_points.len() {
        let Some(function) = function(module, number) else {
            continue;
        };
        let inside = |edit| Edit::Inside(number, edit);
        edits.extend(
            (0..statement_count(&function.body))
                .map(|place| inside(FunctionEdit::DropStatement(place))),
        );
        edits.push(inside(FunctionEdit::DropNames));
        edits.push(inside(FunctionEdit::DropInitialisers));
        edits.push(inside(FunctionEdit::DropLastExpression));
        edits.extend(
            (0..function.expressions.len()).map(|place| inside(FunctionEdit::Simplify(place))),
        );
    }
    edits
}

/// The module after an edit, or nothing where the edit changes nothing.
fn apply(module: &Module, edit: Edit) -> Option<Module> {
    let mut edited = module.clone();
    match edit {
        Edit::DropEntryPoint(number) => {
            edited.entry_points.remove(number);
        }
        Edit::DropLastFunction => edited.functions = without_last(&edited.functions)?,
        Edit::Inside(number, edit) => {
            let count = edited.functions.len();
            let function = match number.checked_sub(count) {
                Some(entry) => &mut edited.entry_points[entry].function,
                None => edited.functions.iter_mut().nth(number)?.1,
            };
            apply_inside(function, edit)?;
        }
    }
    Some(edited)
}

fn apply_inside(function: &mut Function, edit: FunctionEdit) -> Option<()> {
    match edit {
        FunctionEdit::DropStatement(mut place) => drop_statement(&mut function.body, &mut place),
        FunctionEdit::DropNames => {
            let had = !function.named_expressions.is_empty();
            function.named_expressions.clear();
            had.then_some(())
        }
        FunctionEdit::DropInitialisers => {
            let initialisers = function
                .local_variables
                .iter_mut()
                .filter_map(|(_, variable)| variable.init.take());
            (initialisers.count() > 0).then_some(())
        }
        FunctionEdit::DropLastExpression => {
            function.expressions = without_last(&function.expressions)?;
            Some(())
        }
        FunctionEdit::Simplify(place) => {
            let (_, expression) = function.expressions.iter_mut().nth(place)?;
            if matches!(expression, Expression::Literal(_)) {
                return None;
            }
            *expression = Expression::Literal(Literal::U32(0));
            Some(())
        }
    }
}

fn function(module: &Module, number: usize) -> Option<&Function> {
    match number.checked_sub(module.functions.len()) {
        Some(entry) => module.entry_points.get(entry).map(|entry| &entry.function),
        None => module
            .functions
            .iter()
            .nth(number)
            .map(|(_, function)| function),
    }
}

fn without_last<T: Clone>(arena: &Arena<T>) -> Option<Arena<T>> {
    let kept = arena.len().checked_sub(1)?;
    let mut shorter = Arena::new();
    for (handle, value) in arena.iter().take(kept) {
        shorter.append(value.clone(), arena.get_span(handle));
    }
    Some(shorter)
}

fn statement_count(block: &Block) -> usize {
    block
        .iter()
        .map(|statement| 1 + blocks(statement).map(statement_count).sum::<usize>())
        .sum()
}

/// Drops the statement at a place counted in preorder, with all that it holds.
fn drop_statement(block: &mut Block, place: &mut usize) -> Option<()> {
    for index in 0..block.len() {
        if *place == 0 {
            block.cull(index..=index);
            return Some(());
        }
        *place -= 1;
        let dropped = blocks_mut(&mut block[index])
            .into_iter()
            .find_map(|inner| drop_statement(inner, place));
        if dropped.is_some() {
            return dropped;
        }
    }
    None
}

fn blocks(statement: &Statement) -> impl Iterator<Item = &Block> {
    match statement {
        Statement::Block(block) => vec![block],
        Statement::If { accept, reject, .. } => vec![accept, reject],
        Statement::Switch { cases, .. } => cases.iter().map(|case| &case.body).collect(),
        Statement::Loop {
            body, continuing, ..
        } => vec![body, continuing],
        _ => vec![],
    }
    .into_iter()
}

fn blocks_mut(statement: &mut Statement) -> Vec<&mut Block> {
    match statement {
        Statement::Block(block) => vec![block],
        Statement::If { accept, reject, .. } => vec![accept, reject],
        Statement::Switch { cases, .. } => cases.iter_mut().map(|case| &mut case.body).collect(),
        Statement::Loop {
            body, continuing, ..
        } => vec![body, continuing],
        _ => vec![],
    }
}

#[cfg(test)]
mod tests {
    use super::*;

    fn kills(block: &Block) -> bool {
        block
            .iter()
            .any(|statement| matches!(statement, Statement::Kill) || blocks(statement).any(kills))
    }

    #[test]
    fn what_is_not_needed_goes() {
        let module = naga::front::wgsl::parse_str(
            "var<private> p: f32;
             fn other() {}
             fn wanted(x: f32) { let a = x + 1.0; if a > p { p = a; loop { discard; } } }
             @fragment fn main() { wanted(1.0); }",
        )
        .expect("it is WGSL");
        let holds = |module: &Module| module.functions.iter().any(|(_, f)| kills(&f.body));

        let small = shrink(module, holds);

        assert!(holds(&small));
        assert!(small.entry_points.is_empty());
        let counts: Vec<_> = small
            .functions
            .iter()
            .map(|(_, function)| (statement_count(&function.body), function.expressions.len()))
            .collect();
        assert_eq!(counts, [(0, 0), (3, 0)]);
    }
}
