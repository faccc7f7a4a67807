//! Functions that are mostly loops, in each other's bodies and continuing arms, and in them what a disruptor matters
//! to: returns, discards, barriers, cooperative loads, and calls of functions that may kill.
//!
//! What a function does is drawn once, as a [`Flow`], and then written as WGSL or built as a naga module.

use crate::Random;
use naga::{
    AddressSpace, ArraySize, Barrier, Block, CooperativeData, CooperativeRole, CooperativeSize,
    Expression, Function, GlobalVariable, Handle, Literal, LocalVariable, MemoryDecorations,
    Module, Range, Scalar, Span, Statement, StorageAccess, SwitchCase, SwitchValue, Type,
    TypeInner,
};
use std::num::NonZeroU32;

/// A program of such functions that naga's front end accepts.
pub fn program(seed: u64) -> String {
    let mut text = String::from(
        "enable wgpu_cooperative_matrix;\n\
         @group(0) @binding(0) var<uniform> number: u32;\n\
         @group(0) @binding(1) var<storage, read> fixed: array<f32>;\n",
    );
    for (number, flow) in functions(seed).iter().enumerate() {
        text.push_str(&format!("fn part{number}() {{\nvar kept: f32 = 1.0;\n"));
        write(flow, &mut text);
        text.push_str("}\n");
    }
    text
}

/// A module of such functions.
pub fn module(seed: u64) -> Module {
    let mut module = Module::default();
    let float = put_type(&mut module, TypeInner::Scalar(Scalar::F32));
    let array = TypeInner::Array {
        base: float,
        size: ArraySize::Constant(NonZeroU32::MIN),
        stride: 4,
    };
    let ty = put_type(&mut module, array);
    let variable = GlobalVariable {
        name: None,
        space: AddressSpace::Storage {
            access: StorageAccess::LOAD,
        },
        binding: None,
        ty,
        init: None,
        memory_decorations: MemoryDecorations::empty(),
    };
    let global = module.global_variables.append(variable, Span::UNDEFINED);
    let mut lower = Vec::new();
    for flow in functions(seed) {
        let function = Building::new(&lower, global, float).build(&flow);
        lower.push(module.functions.append(function, Span::UNDEFINED));
    }
    module
}

/// What a statement does.
enum Flow {
    Load,
    Kill,
    Return,
    Barrier,
    /// Of a lower function.
    Call(usize),
    Block(Vec<Flow>),
    If(On, Vec<Flow>, Vec<Flow>),
    /// Each arm, and whether it falls through; WGSL has no word for that.
    Switch(On, Vec<(Vec<Flow>, bool)>),
    Loop {
        body: Vec<Flow>,
        continuing: Vec<Flow>,
        break_if: Option<On>,
    },
}

/// What a condition or a selector is of.
#[derive(Clone, Copy)]
enum On {
    /// Uniform.
    Same,
    /// A local, which isn't.
    Own,
}

/// The functions of a seed, each calling only those before it. They are short: what comes after the first exit of a
/// function is disrupted by any rule.
fn functions(seed: u64) -> Vec<Vec<Flow>> {
    let mut random = Random::new(seed);
    let loads = random.chance(50);
    (0..random.between(1, 5))
        .map(|lower| {
            let budget = random.between(1, 10);
            let mut drawing = Drawing {
                random: &mut random,
                loads,
                lower,
                budget,
            };
            let mut flow = Vec::new();
            while drawing.budget > 0 {
                flow.push(drawing.statement(0));
            }
            flow
        })
        .collect()
}

/// How deep statements may lie in each other, arms not counted; well under 01's limit.
const DEPTH: usize = 5;

/// A function as it is drawn.
struct Drawing<'a> {
    random: &'a mut Random,
    /// Whether cooperative loads come at all: the first under a disruptor ends the analysis.
    loads: bool,
    lower: usize,
    /// Statements that the function may still have, a loop's ways out and ends besides.
    budget: usize,
}

impl Drawing<'_> {
    fn flow(&mut self, depth: usize) -> Vec<Flow> {
        let mut flow = Vec::new();
        for _ in 0..self.random.below(3) {
            if self.budget > 0 {
                flow.push(self.statement(depth));
            }
        }
        flow
    }

    fn statement(&mut self, depth: usize) -> Flow {
        self.budget -= 1;
        match self.random.below(if depth < DEPTH { 20 } else { 6 }) {
            0 if self.loads => Flow::Load,
            0 | 1 => Flow::Barrier,
            2 => Flow::Kill,
            3 => Flow::Return,
            4 | 5 if self.lower > 0 => Flow::Call(self.random.below(self.lower)),
            4 | 5 => Flow::Barrier,
            6..=15 => Flow::Loop {
                body: self.body(depth + 1),
                continuing: self.continuing(depth + 1),
                break_if: self.random.chance(40).then(|| self.on()),
            },
            16 | 17 => Flow::If(self.on(), self.flow(depth + 1), self.flow(depth + 1)),
            18 => {
                let arms = self.random.between(0, 3);
                let on = self.on();
                let arm = |_| (self.flow(depth + 1), self.random.chance(30));
                Flow::Switch(on, (0..arms).map(arm).collect())
            }
            _ => Flow::Block(self.flow(depth + 1)),
        }
    }

    /// Often with a way out that some take, which is what the continuing arm then starts from.
    fn body(&mut self, depth: usize) -> Vec<Flow> {
        let mut body = self.flow(depth);
        if self.random.chance(60) {
            let out = if self.random.chance(60) {
                Flow::Return
            } else {
                Flow::Kill
            };
            body.push(Flow::If(On::Own, vec![out], Vec::new()));
        }
        body
    }

    /// Mostly ends in something that shows whether the arm is disrupted.
    fn continuing(&mut self, depth: usize) -> Vec<Flow> {
        let mut continuing = self.flow(depth);
        match self.random.below(6) {
            0 | 1 => continuing.push(Flow::Kill),
            2 if self.loads => continuing.push(Flow::Load),
            2 | 3 => continuing.push(Flow::Return),
            4 => continuing.push(Flow::Barrier),
            _ => (),
        }
        continuing
    }

    /// Mostly uniform, so that what lies inside isn't disrupted before it begins.
    fn on(&mut self) -> On {
        if self.random.chance(85) {
            On::Same
        } else {
            On::Own
        }
    }
}

fn write(flow: &[Flow], text: &mut String) {
    let condition = |on: On| match on {
        On::Same => "number > 1u",
        On::Own => "kept > 0.5",
    };
    for statement in flow {
        match statement {
            Flow::Load => {
                text.push_str("_ = coopLoad<coop_mat8x8<f32, C>>(&fixed[0]);\n");
            }
            Flow::Kill => text.push_str("discard;\n"),
            Flow::Return => text.push_str("return;\n"),
            Flow::Barrier => text.push_str("workgroupBarrier();\n"),
            Flow::Call(number) => text.push_str(&format!("part{number}();\n")),
            Flow::Block(inside) => braces("", inside, text),
            Flow::If(on, accept, reject) => {
                braces(&format!("if {} ", condition(*on)), accept, text);
                braces("else ", reject, text);
            }
            Flow::Switch(on, arms) => {
                let selector = match on {
                    On::Same => "number",
                    On::Own => "u32(kept)",
                };
                text.push_str(&format!("switch {selector} {{\n"));
                for (number, (inside, _)) in arms.iter().enumerate() {
                    braces(&format!("case {number}u: "), inside, text);
                }
                text.push_str("default: {}\n}\n");
            }
            Flow::Loop {
                body,
                continuing,
                break_if,
            } => {
                text.push_str("loop {\n");
                write(body, text);
                text.push_str("continuing {\n");
                write(continuing, text);
                if let Some(on) = break_if {
                    text.push_str(&format!("break if {};\n", condition(*on)));
                }
                text.push_str("}\n}\n");
            }
        }
    }
}

fn braces(head: &str, inside: &[Flow], text: &mut String) {
    text.push_str(head);
    text.push_str("{\n");
    write(inside, text);
    text.push_str("}\n");
}

/// A function as it is built.
struct Building<'a> {
    lower: &'a [Handle<Function>],
    function: Function,
    same: Handle<Expression>,
    own: Handle<Expression>,
    load: Handle<Expression>,
}

impl<'a> Building<'a> {
    fn new(
        lower: &'a [Handle<Function>],
        global: Handle<GlobalVariable>,
        float: Handle<Type>,
    ) -> Self {
        let mut function = Function::default();
        let variable = LocalVariable {
            name: None,
            ty: float,
            init: None,
        };
        let variable = function.local_variables.append(variable, Span::UNDEFINED);
        let mut put = |expression| function.expressions.append(expression, Span::UNDEFINED);
        let same = put(Expression::Literal(Literal::U32(1)));
        let own = put(Expression::LocalVariable(variable));
        let base = put(Expression::GlobalVariable(global));
        let pointer = put(Expression::AccessIndex { base, index: 0 });
        let load = put(Expression::CooperativeLoad {
            columns: CooperativeSize::Eight,
            rows: CooperativeSize::Eight,
            role: CooperativeRole::C,
            data: CooperativeData {
                pointer,
                stride: same,
                row_major: false,
            },
        });
        Building {
            lower,
            function,
            same,
            own,
            load,
        }
    }

    fn build(mut self, flow: &[Flow]) -> Function {
        self.function.body = self.block(flow);
        self.function
    }

    fn block(&self, flow: &[Flow]) -> Block {
        Block::from_vec(
            flow.iter()
                .map(|statement| self.statement(statement))
                .collect(),
        )
    }

    fn statement(&self, statement: &Flow) -> Statement {
        match statement {
            Flow::Load => Statement::Emit(Range::new_from_bounds(self.load, self.load)),
            Flow::Kill => Statement::Kill,
            Flow::Return => Statement::Return { value: None },
            Flow::Barrier => Statement::ControlBarrier(Barrier::WORK_GROUP),
            &Flow::Call(number) => Statement::Call {
                function: self.lower[number],
                arguments: Vec::new(),
                result: None,
            },
            Flow::Block(inside) => Statement::Block(self.block(inside)),
            Flow::If(on, accept, reject) => Statement::If {
                condition: self.on(*on),
                accept: self.block(accept),
                reject: self.block(reject),
            },
            Flow::Switch(on, arms) => Statement::Switch {
                selector: self.on(*on),
                cases: arms
                    .iter()
                    .map(|(inside, falls)| self.arm(inside, *falls))
                    .collect(),
            },
            Flow::Loop {
                body,
                continuing,
                break_if,
            } => Statement::Loop {
                body: self.block(body),
                continuing: self.block(continuing),
                break_if: break_if.map(|on| self.on(on)),
            },
        }
    }

    fn arm(&self, inside: &[Flow], fall_through: bool) -> SwitchCase {
        SwitchCase {
            value: SwitchValue::Default,
            body: self.block(inside),
            fall_through,
        }
    }

    fn on(&self, on: On) -> Handle<Expression> {
        match on {
            On::Same => self.same,
            On::Own => self.own,
        }
    }
}

fn put_type(module: &mut Module, inner: TypeInner) -> Handle<Type> {
    module
        .types
        .insert(Type { name: None, inner }, Span::UNDEFINED)
}

#[cfg(test)]
mod tests {
    use super::*;

    #[test]
    fn the_front_end_takes_every_program() {
        for seed in 0..400 {
            let program = program(seed);
            if let Err(error) = naga::front::wgsl::parse_str(&program) {
                panic!("seed {seed}: {}\n{program}", error.emit_to_string(&program));
            }
        }
    }
}
