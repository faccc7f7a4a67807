//! What docs/DIFFERENCES.md says is no difference, but worth knowing: mostly modules on which the release or
//! document 01 has no answer to compare.

use convert::{module_file, Settings};
use files::ModuleFile;
use naga::valid::Capabilities;
use naga::{
    AddressSpace, ArraySize, Expression, Function, GlobalVariable, Handle, Literal,
    MemoryDecorations, Module, ShaderStage, Span, Statement, Type, TypeInner,
};
use reference::{analyse, Answer, Refusal};
use release::{compare, run, Comparison, Reason, Verdict};
use std::num::NonZeroU32;

fn settings() -> Settings {
    Settings {
        capabilities: Capabilities::empty(),
        check_control_flow: true,
    }
}

fn wgsl(source: &str) -> Module {
    naga::front::wgsl::parse_str(source).expect("it is WGSL")
}

fn file_of(module: &Module) -> ModuleFile {
    module_file(module, settings()).expect("it is within the limits")
}

/// How a module compares by 01.
fn compared(module: &Module) -> Comparison {
    let file = file_of(module);
    compare(&file, &analyse(&file.encode()), &run(module, settings()))
}

fn put_type(module: &mut Module, inner: TypeInner) -> Handle<Type> {
    module
        .types
        .insert(Type { name: None, inner }, Span::UNDEFINED)
}

fn put_global(module: &mut Module, ty: Handle<Type>) -> Handle<GlobalVariable> {
    let variable = GlobalVariable {
        name: None,
        space: AddressSpace::Handle,
        binding: None,
        ty,
        init: None,
        memory_decorations: MemoryDecorations::empty(),
    };
    module.global_variables.append(variable, Span::UNDEFINED)
}

fn put(function: &mut Function, expression: Expression) -> Handle<Expression> {
    function.expressions.append(expression, Span::UNDEFINED)
}

/// A binding array of acceleration structures: 8 by 01, a panic in the release.
#[test]
fn other_binding_arrays_make_the_release_panic() {
    let mut module = Module::default();
    let base = put_type(
        &mut module,
        TypeInner::AccelerationStructure {
            vertex_return: false,
        },
    );
    let size = ArraySize::Constant(NonZeroU32::MIN);
    let array = put_type(&mut module, TypeInner::BindingArray { base, size });
    let global = put_global(&mut module, array);
    let mut function = Function::default();
    let base = put(&mut function, Expression::GlobalVariable(global));
    let index = put(&mut function, Expression::Literal(Literal::U32(0)));
    put(&mut function, Expression::Access { base, index });
    module.functions.append(function, Span::UNDEFINED);

    assert!(matches!(
        run(&module, settings()),
        Verdict::NotComparable(Reason::Panicked)
    ));
    let refused = Refusal {
        number: 8,
        place: 2,
        ..Refusal::default()
    };
    let answer = analyse(&file_of(&module).encode());
    assert_eq!(answer, Answer::Refused(refused));
    assert_eq!(compared(&module), Comparison::NotCompared(8));
}

/// A Call with too few operands: 10 by 01; the release leaves it to another check and accepts.
#[test]
fn a_short_call_is_not_compared() {
    let mut module = wgsl("fn f(x: f32) {} fn g() { f(1.0); }");
    let (_, caller) = module
        .functions
        .iter_mut()
        .nth(1)
        .expect("there are two functions");
    for statement in caller.body.iter_mut() {
        if let Statement::Call { arguments, .. } = statement {
            arguments.clear();
        }
    }
    assert!(matches!(run(&module, settings()), Verdict::Accepted(_)));
    assert_eq!(compared(&module), Comparison::NotCompared(10));
}

/// Filters change what the analyzer refuses, and mesh and task entry points get uses after it; so such
/// modules are left out before they are run.
#[test]
fn filters_and_task_entries_are_left_out() {
    let filtered = wgsl("diagnostic(off, derivative_uniformity); fn f() {}");
    assert!(matches!(
        run(&filtered, settings()),
        Verdict::NotComparable(Reason::DiagnosticFilter)
    ));

    let mut task = wgsl("@compute @workgroup_size(1) fn main() {}");
    task.entry_points[0].stage = ShaderStage::Task;
    assert!(matches!(
        run(&task, settings()),
        Verdict::NotComparable(Reason::MeshOrTaskEntry)
    ));
}

/// What another check of the validator refuses says nothing about the analyzer.
#[test]
fn refusals_outside_the_analyzer_are_told_apart() {
    let no_position = wgsl("@vertex fn main() -> @location(0) f32 { return 1.0; }");
    assert!(matches!(
        run(&no_position, settings()),
        Verdict::NotComparable(Reason::OutsideAnalyzer)
    ));
}
