//! `bodies [RECORDS]`: the reference of document 01 against the released crate on every body of at most so many records
//! (6 if not given) over a function whose one expression is a local.
//!
//! These are all ways to nest Emit, Break, Kill, Barrier, Return, Block, If, Switch and Loop, arms counted as records. It
//! says how many were judged, and fails at the first on which the two differ.

use compare::{judge, reference, Judgement};
use convert::Settings;
use naga::valid::Capabilities;
use naga::{
    Barrier, Block, Expression, Function, Handle, LocalVariable, Module, Range, Scalar, Span,
    Statement, SwitchCase, SwitchValue, Type, TypeInner,
};

const SETTINGS: Settings = Settings {
    capabilities: Capabilities::empty(),
    check_control_flow: true,
};

fn main() {
    let most = match std::env::args().nth(1) {
        Some(word) => word.parse().expect("usage: bodies [RECORDS]"),
        None => 6,
    };
    let (_, local) = local_with_body(Block::new());
    let bodies = Bodies { local };
    for records in 0..=most {
        let (mut judged, mut may_kill) = (0usize, 0usize);
        bodies.each(records, &mut |body| {
            let (module, _) = local_with_body(body.clone());
            match judge(&module, SETTINGS, &reference) {
                Judgement::EqualReports(found) => {
                    may_kill += usize::from(found.summaries[0].may_kill)
                }
                Judgement::EqualRefusals { .. } => {}
                _ => panic!("they differ, or can't be compared: {body:?}"),
            }
            judged += 1;
        });
        println!("{records} records: {judged} judged, all equal, {may_kill} may kill");
    }
}

/// A module of one function, whose one expression is a local, with this body.
fn local_with_body(body: Block) -> (Module, Handle<Expression>) {
    let mut module = Module::default();
    let inner = TypeInner::Scalar(Scalar::I32);
    let ty = module
        .types
        .insert(Type { name: None, inner }, Span::UNDEFINED);
    let mut function = Function {
        body,
        ..Function::default()
    };
    let variable = LocalVariable {
        name: None,
        ty,
        init: None,
    };
    let variable = function.local_variables.append(variable, Span::UNDEFINED);
    let local = function
        .expressions
        .append(Expression::LocalVariable(variable), Span::UNDEFINED);
    module.functions.append(function, Span::UNDEFINED);
    (module, local)
}

/// Bodies by the number of records that they take in a module file, arms counted. There are too many to be kept, so
/// each is shown as it is made.
struct Bodies {
    local: Handle<Expression>,
}

impl Bodies {
    fn each(&self, records: usize, show: &mut dyn FnMut(&Block)) {
        if records == 0 {
            return show(&Block::new());
        }
        for first in 1..=records {
            self.each_statement(first, &mut |statement| {
                self.each(records - first, &mut |rest| {
                    let mut body = Block::from_vec(vec![statement.clone()]);
                    body.append(&mut rest.clone());
                    show(&body);
                });
            });
        }
    }

    fn each_statement(&self, records: usize, show: &mut dyn FnMut(&Statement)) {
        if records == 1 {
            return self.leaves().iter().for_each(show);
        }
        self.each(records - 1, &mut |body| {
            show(&Statement::Block(body.clone()))
        });
        if records >= 3 {
            self.each_two(records - 3, &mut |one, other| {
                show(&Statement::If {
                    condition: self.local,
                    accept: one.clone(),
                    reject: other.clone(),
                });
                show(&Statement::Loop {
                    body: one.clone(),
                    continuing: other.clone(),
                    break_if: None,
                });
            });
        }
        self.each_arms(records - 1, &mut |cases| {
            show(&Statement::Switch {
                selector: self.local,
                cases: cases.to_vec(),
            });
        });
    }

    /// Statements of one record, an empty Switch among them. Store and Call are left out: no disruptor matters to
    /// them.
    fn leaves(&self) -> Vec<Statement> {
        vec![
            Statement::Emit(Range::new_from_bounds(self.local, self.local)),
            Statement::Break,
            Statement::Kill,
            Statement::ControlBarrier(Barrier::WORK_GROUP),
            Statement::Return { value: None },
            Statement::Return {
                value: Some(self.local),
            },
            Statement::Switch {
                selector: self.local,
                cases: Vec::new(),
            },
        ]
    }

    fn each_two(&self, records: usize, show: &mut dyn FnMut(&Block, &Block)) {
        for first in 0..=records {
            self.each(first, &mut |one| {
                self.each(records - first, &mut |other| show(one, other));
            });
        }
    }

    /// At least one arm, each falling through or not.
    fn each_arms(&self, records: usize, show: &mut dyn FnMut(&[SwitchCase])) {
        for first in 1..=records {
            self.each(first - 1, &mut |body| {
                for fall_through in [false, true] {
                    let arm = SwitchCase {
                        value: SwitchValue::Default,
                        body: body.clone(),
                        fall_through,
                    };
                    if first == records {
                        show(std::slice::from_ref(&arm));
                        continue;
                    }
                    self.each_arms(records - first, &mut |rest| {
                        let arms: Vec<_> = std::iter::once(&arm).chain(rest).cloned().collect();
                        show(&arms);
                    });
                }
            });
        }
    }
}
