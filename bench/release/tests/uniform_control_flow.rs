//! Source 000's own test, `uniform_control_flow`, carried over step by step.
//!
//! That test calls private functions on one `FunctionInfo`, several blocks one after another, each from a
//! disruptor that it names. Here each step is a whole module that both the released crate and the
//! reference analyse:
//!
//! - Blocks that the test runs on the same info stand one after another in one function, so counts and uses add
//!   up as they do there.
//! - A starting disruptor Return is an If under a non-uniform condition, before the block, with a Return in
//!   it; Discard is the same with a Kill. The condition is a local variable, an expression that the test doesn't
//!   have, so no count that it looks at changes.
//! - Exit flags aren't in a report, but for may-kill. They are seen by what follows: the block stands in an arm
//!   under the local variable, and after it a cooperative load is emitted. Its refusal 11 names the exit as its
//!   cause.
//! - The test's non-uniform global is a vector in space Handle, which the release's validator turns down
//!   before its analyzer. In the naga modules it lies in Private; both spaces are non-uniform. The module files in
//!   `bench/uniform_control_flow` have Handle, and their answers are the same.
//! - The release has the derivative requirement at zero, and the arm of the test for the other value is not
//!   compiled; so refusal 11 can't come from a Derivative there, nor by 01.

use convert::{module_file, Settings};
use naga::valid::Capabilities;
use naga::{
    AddressSpace, Block, CooperativeData, CooperativeRole, CooperativeSize, DerivativeAxis,
    DerivativeControl, Expression, Function, GlobalVariable, Handle, Literal, LocalVariable,
    MemoryDecorations, Module, Range, Scalar, Span, Statement, Type, TypeInner, VectorSize,
};
use reference::{Answer, Refusal};
use release::{compare, read_report, run, Comparison, Summary};
use std::path::PathBuf;

const READ: u8 = 1;
const WRITE: u8 = 2;
const QUERY: u8 = 4;
const DERIVATIVE: u8 = 2;
const CHANGING: usize = 0;
const FIXED: usize = 1;

/// The test's expressions, and a local variable for what must come before or around its blocks.
struct Scene {
    module: Module,
    function: Function,
    constant: Handle<Expression>,
    derivative: Handle<Expression>,
    changing: Handle<Expression>,
    fixed: Handle<Expression>,
    query: Handle<Expression>,
    access: Handle<Expression>,
    local: Handle<Expression>,
}

impl Scene {
    fn new() -> Self {
        let mut module = Module::default();
        let inner = TypeInner::Vector {
            size: VectorSize::Bi,
            scalar: Scalar::F32,
        };
        let ty = module
            .types
            .insert(Type { name: None, inner }, Span::UNDEFINED);
        let mut global = |space| {
            let variable = GlobalVariable {
                name: None,
                space,
                binding: None,
                ty,
                init: None,
                memory_decorations: MemoryDecorations::empty(),
            };
            module.global_variables.append(variable, Span::UNDEFINED)
        };
        let changing = global(AddressSpace::Private);
        let fixed = global(AddressSpace::Uniform);

        let mut function = Function::default();
        let variable = LocalVariable {
            name: None,
            ty,
            init: None,
        };
        let variable = function.local_variables.append(variable, Span::UNDEFINED);
        let mut add = |expression| function.expressions.append(expression, Span::UNDEFINED);
        let constant = add(Expression::Literal(Literal::U32(0)));
        let derivative = add(Expression::Derivative {
            axis: DerivativeAxis::X,
            ctrl: DerivativeControl::None,
            expr: constant,
        });
        let changing = add(Expression::GlobalVariable(changing));
        let fixed = add(Expression::GlobalVariable(fixed));
        let query = add(Expression::ArrayLength(fixed));
        let access = add(Expression::AccessIndex {
            base: changing,
            index: 1,
        });
        let local = add(Expression::LocalVariable(variable));
        Scene {
            constant,
            derivative,
            changing,
            fixed,
            query,
            access,
            local,
            module,
            function,
        }
    }

    /// The test's first block: a branch on the uniform global.
    fn uniform_branch(&self) -> Vec<Statement> {
        vec![
            self.emit_globals(),
            Statement::If {
                condition: self.fixed,
                accept: Block::new(),
                reject: self.emit_and_store().into(),
            },
        ]
    }

    /// The test's second block: a branch on the non-uniform global.
    fn non_uniform_branch(&self) -> Vec<Statement> {
        vec![
            self.emit_globals(),
            Statement::If {
                condition: self.changing,
                accept: self.emit_and_store().into(),
                reject: Block::new(),
            },
        ]
    }

    /// The test's third block.
    fn return_non_uniform(&self) -> Vec<Statement> {
        vec![self.emit_globals(), give_back(self.changing)]
    }

    /// The test's fourth block.
    fn store_kill_return(&self) -> Vec<Statement> {
        vec![
            Statement::Emit(Range::new_from_bounds(self.changing, self.access)),
            Statement::Store {
                pointer: self.access,
                value: self.query,
            },
            Statement::Kill,
            give_back(self.access),
        ]
    }

    fn emit_globals(&self) -> Statement {
        Statement::Emit(Range::new_from_bounds(self.changing, self.fixed))
    }

    fn emit_and_store(&self) -> Vec<Statement> {
        vec![
            Statement::Emit(Range::new_from_bounds(self.constant, self.derivative)),
            Statement::Store {
                pointer: self.constant,
                value: self.derivative,
            },
        ]
    }

    /// Statements in an arm under the local variable, which is non-uniform.
    fn under_local(&self, statements: Vec<Statement>) -> Statement {
        Statement::If {
            condition: self.local,
            accept: statements.into(),
            reject: Block::new(),
        }
    }

    /// A load that wants uniform control flow, and its Emit.
    fn cooperative_load(&mut self) -> Statement {
        let load = Expression::CooperativeLoad {
            columns: CooperativeSize::Eight,
            rows: CooperativeSize::Eight,
            role: CooperativeRole::C,
            data: CooperativeData {
                pointer: self.local,
                stride: self.constant,
                row_major: false,
            },
        };
        let load = self.function.expressions.append(load, Span::UNDEFINED);
        Statement::Emit(Range::new_from_bounds(load, load))
    }

    /// The module whose one function has these statements.
    fn module(mut self, body: Vec<Statement>) -> Module {
        self.function.body = body.into();
        self.module.functions.append(self.function, Span::UNDEFINED);
        self.module
    }
}

fn give_back(value: Handle<Expression>) -> Statement {
    Statement::Return { value: Some(value) }
}

/// The reference's answer on a module, once the release's was found to agree with it, and the answer on
/// the kept module file too.
fn answer(name: &str, module: &Module) -> Answer {
    let settings = Settings {
        capabilities: Capabilities::empty(),
        check_control_flow: true,
    };
    let mut file = module_file(module, settings).expect("the module is within 01's limits");
    let answer = reference::analyse(&file.encode());
    let comparison = compare(&file, &answer, &run(module, settings));
    assert!(
        matches!(
            comparison,
            Comparison::EqualReports | Comparison::EqualRefusals(_)
        ),
        "{name}: {comparison:?}"
    );

    const HANDLE: u8 = 10;
    file.spaces[CHANGING] = HANDLE;
    let bytes = file.encode();
    assert_eq!(reference::analyse(&bytes), answer, "{name}, in Handle");
    check_kept(name, "module", &bytes);
    match &answer {
        Answer::Report(report) => check_kept(name, "report", report),
        Answer::Refused(refusal) => check_kept(name, "refusal", values(refusal).as_bytes()),
    }
    answer
}

/// A refusal's five values (01, 8.1), as text.
fn values(refusal: &Refusal) -> String {
    let Refusal {
        number,
        function,
        place,
        cause,
        value,
    } = refusal;
    format!("{number} {function} {place} {cause} {value}\n")
}

/// Holds bytes against the kept file; with `UPDATE` set in the environment, writes it instead.
fn check_kept(name: &str, extension: &str, bytes: &[u8]) {
    let path = PathBuf::from(env!("CARGO_MANIFEST_DIR"))
        .join("../uniform_control_flow")
        .join(format!("{name}.{extension}"));
    if std::env::var_os("UPDATE").is_some() {
        std::fs::write(&path, bytes).expect("the kept file can be written");
    }
    let kept = std::fs::read(&path).expect("the kept file can be read");
    assert_eq!(kept, bytes, "{name}.{extension} isn't what the step gives");
}

fn accepted(name: &str, module: &Module) -> Summary {
    match answer(name, module) {
        Answer::Report(report) => read_report(&report).expect("it is a report").remove(0),
        Answer::Refused(refusal) => panic!("{name}: {refusal:?}"),
    }
}

fn refused(name: &str, module: &Module) -> Refusal {
    match answer(name, module) {
        Answer::Report(_) => panic!("{name} is accepted"),
        Answer::Refused(refusal) => refusal,
    }
}

fn count(summary: &Summary, expression: Handle<Expression>) -> u32 {
    summary.expressions[expression.index()].count
}

fn number(expression: Handle<Expression>) -> u16 {
    expression.index() as u16
}

#[test]
fn expressions_alone() {
    let scene = Scene::new();
    let [changing, fixed, query, access] = [scene.changing, scene.fixed, scene.query, scene.access];
    let summary = accepted("expressions", &scene.module(vec![]));

    assert_eq!(count(&summary, changing), 1);
    assert_eq!(count(&summary, fixed), 1);
    assert_eq!(count(&summary, query), 0);
    assert_eq!(count(&summary, access), 0);
    assert_eq!(summary.uses[CHANGING], 0);
    assert_eq!(summary.uses[FIXED], QUERY);
}

#[test]
fn branch_on_a_uniform_global() {
    let scene = Scene::new();
    let constant = scene.constant;
    let body = scene.uniform_branch();
    let summary = accepted("uniform_branch", &scene.module(body));

    assert_eq!(summary.origin, None);
    assert_eq!(summary.requirements, DERIVATIVE);
    assert!(!summary.may_kill);
    assert_eq!(count(&summary, constant), 2);
    assert_eq!(summary.uses[FIXED], READ | QUERY);
}

#[test]
fn branch_on_a_non_uniform_global() {
    let scene = Scene::new();
    let derivative = scene.derivative;
    let body = [scene.uniform_branch(), scene.non_uniform_branch()].concat();
    let summary = accepted("non_uniform_branch", &scene.module(body));

    assert_eq!(count(&summary, derivative), 2);
    assert_eq!(summary.uses[CHANGING], READ);
}

#[test]
fn return_after_a_return() {
    let scene = Scene::new();
    let changing = scene.changing;
    let body = [
        scene.uniform_branch(),
        scene.non_uniform_branch(),
        vec![scene.under_local(vec![Statement::Return { value: None }])],
        scene.return_non_uniform(),
    ]
    .concat();
    let summary = accepted("return", &scene.module(body));

    assert_eq!(summary.origin, Some(number(changing)));
    assert!(!summary.may_kill);
    assert_eq!(count(&summary, changing), 3);
}

#[test]
fn a_return_may_return() {
    let mut scene = Scene::new();
    let load = scene.cooperative_load();
    let block = scene.return_non_uniform();
    let body = vec![scene.under_local(block), load];
    let refusal = refused("return_exit", &scene.module(body));

    let expected = Refusal {
        number: 11,
        place: 7,
        cause: 2,
        ..Refusal::default()
    };
    assert_eq!(refusal, expected);
}

#[test]
fn store_kill_and_return_after_a_discard() {
    let scene = Scene::new();
    let changing = scene.changing;
    let body = [
        scene.uniform_branch(),
        scene.non_uniform_branch(),
        vec![scene.under_local(vec![Statement::Kill])],
        scene.store_kill_return(),
    ]
    .concat();
    let summary = accepted("store_kill_return", &scene.module(body));

    assert_eq!(summary.origin, Some(number(changing)));
    assert!(summary.may_kill);
    assert_eq!(summary.uses[CHANGING], READ | WRITE);
}

#[test]
fn the_last_block_may_return_and_may_kill() {
    let mut scene = Scene::new();
    let load = scene.cooperative_load();
    let block = scene.store_kill_return();
    let around = scene.under_local(block);
    let changing = scene.changing;

    let kills = accepted(
        "store_kill_return_exit",
        &Scene::new().module(vec![around.clone()]),
    );
    assert_eq!(kills.origin, Some(number(changing)));
    assert!(kills.may_kill);

    // Return comes before Discard where both are possible.
    let refusal = refused("store_kill_return_cause", &scene.module(vec![around, load]));
    assert_eq!((refusal.number, refusal.cause), (11, 2));
}
