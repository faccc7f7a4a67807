//! naga modules built directly.
//!
//! The release is run without its checks of blocks and expressions, so a statement may use any
//! expression and a range be emitted anywhere: only types must resolve. That gives far more shapes than a
//! front end does, and the analyzer sees them all.

mod expressions;
mod palette;
mod statements;

use crate::Random;
use expressions::Builder;
use naga::{
    Binding, BuiltIn, EntryPoint, Function, FunctionArgument, FunctionResult, Handle, Module,
    ShaderStage, Span, Type,
};
use palette::{Class, Palette};

/// A module in which every handle is sound and every type resolves.
pub fn module(seed: u64) -> Module {
    module_with(seed, Bounds::default(), |random| {
        // Sometimes enough functions for long chains, still within 01's limits.
        let most = if random.chance(4) { 50 } else { 7 };
        random.between(1, most)
    })
}

/// A module of so many functions, entry points besides, each within the bounds.
pub fn module_of(seed: u64, functions: usize, bounds: Bounds) -> Module {
    module_with(seed, bounds, |_| functions)
}

/// The most that a function is given; what its arguments and the globals start it with comes besides.
#[derive(Clone, Copy, Debug)]
pub struct Bounds {
    pub expressions: usize,
    pub statements: usize,
}

impl Default for Bounds {
    fn default() -> Self {
        Bounds {
            expressions: 40,
            statements: 24,
        }
    }
}

fn module_with(seed: u64, bounds: Bounds, functions: impl FnOnce(&mut Random) -> usize) -> Module {
    let mut random = Random::new(seed);
    let temper = Temper::draw(&mut random, bounds);
    let mut module = Module::default();
    let palette = Palette::new(&mut module, &mut random, &temper);
    module.generate_ray_intersection_type();
    let mut callees = Vec::new();
    for _ in 0..functions(&mut random) {
        let signature = Signature::draw(&mut random);
        let start = signature.function(&palette);
        let function =
            Builder::new(&mut random, &temper, &palette, &callees, &signature, start).build();
        callees.push(Callee {
            handle: module.functions.append(function, Span::UNDEFINED),
            signature,
        });
    }
    if temper.entries {
        for number in 0..random.between(1, 2) {
            let (signature, start) = entry(&mut random, &palette);
            let function =
                Builder::new(&mut random, &temper, &palette, &callees, &signature, start).build();
            module.entry_points.push(compute(number, function));
        }
    }
    module
}

/// What a whole module is given to. A refusal ends an analysis, so most modules are spared most causes
/// of one, and the rules behind them are reached too.
struct Temper {
    /// Images and samplers that are chosen by a Select and given to Calls: refusal 7, where the callee
    /// samples them.
    chosen_in_calls: bool,
    /// The same, sampled where they are chosen.
    chosen_in_samplings: bool,
    /// Cooperative expressions, and emitted results of Calls: refusal 11, under non-uniform flow.
    requiring: bool,
    /// Calls with too few arguments, which 01 refuses and the release lets pass.
    short_calls: bool,
    /// A binding array of acceleration structures, which 01 refuses and the release panics on.
    structures: bool,
    /// Entry points. The release then forbids uses of globals that don't suit their space.
    entries: bool,
    bounds: Bounds,
}

impl Temper {
    fn draw(random: &mut Random, bounds: Bounds) -> Self {
        Temper {
            chosen_in_calls: random.chance(20),
            chosen_in_samplings: random.chance(5),
            requiring: random.chance(50),
            short_calls: random.chance(1),
            structures: random.chance(1),
            entries: random.chance(30),
            bounds,
        }
    }
}

/// A function that later ones may call.
struct Callee {
    handle: Handle<Function>,
    signature: Signature,
}

/// What a caller must know of a function.
struct Signature {
    arguments: Vec<Class>,
    /// Whether it gives back an f32.
    result: bool,
}

impl Signature {
    fn draw(random: &mut Random) -> Self {
        const CLASSES: [Class; 8] = [
            Class::Image,
            Class::Image,
            Class::DepthImage,
            Class::Sampler,
            Class::Sampler,
            Class::Float,
            Class::Uint,
            Class::ArrayPointer,
        ];
        Signature {
            arguments: (0..random.between(0, 5))
                .map(|_| CLASSES[random.below(CLASSES.len())])
                .collect(),
            result: random.chance(70),
        }
    }

    fn function(&self, palette: &Palette) -> Function {
        Function {
            arguments: self
                .arguments
                .iter()
                .map(|&class| argument(palette.argument_type(class), None))
                .collect(),
            result: self.result.then_some(FunctionResult {
                ty: palette.float,
                binding: None,
            }),
            ..Function::default()
        }
    }
}

fn argument(ty: Handle<Type>, built_in: Option<BuiltIn>) -> FunctionArgument {
    FunctionArgument {
        name: None,
        ty,
        binding: built_in.map(Binding::BuiltIn),
    }
}

/// An entry point's arguments: some of the built-ins that are uniform, and of those that aren't.
fn entry(random: &mut Random, palette: &Palette) -> (Signature, Function) {
    let mut built_ins = vec![
        BuiltIn::WorkGroupId,
        BuiltIn::WorkGroupSize,
        BuiltIn::NumWorkGroups,
        BuiltIn::LocalInvocationId,
        BuiltIn::GlobalInvocationId,
    ];
    while random.chance(60) && !built_ins.is_empty() {
        built_ins.swap_remove(random.below(built_ins.len()));
    }
    let function = Function {
        arguments: built_ins
            .iter()
            .map(|&built_in| argument(palette.uint3, Some(built_in)))
            .collect(),
        ..Function::default()
    };
    let signature = Signature {
        arguments: vec![Class::Uint3; built_ins.len()],
        result: false,
    };
    (signature, function)
}

fn compute(number: usize, function: Function) -> EntryPoint {
    EntryPoint {
        name: format!("main{number}"),
        stage: ShaderStage::Compute,
        early_depth_test: None,
        workgroup_size: [8, 8, 1],
        workgroup_size_overrides: None,
        function,
        mesh_info: None,
        task_payload: None,
        incoming_ray_payload: None,
    }
}

#[cfg(test)]
mod tests {
    use super::*;

    #[test]
    fn a_seed_gives_one_module() {
        let text = |seed| format!("{:?}", module(seed));
        assert_eq!(text(3), text(3));
        assert_ne!(text(3), text(4));
    }

    #[test]
    fn handles_are_sound_and_types_resolve() {
        use naga::valid::{Capabilities, ValidationFlags, Validator};
        let mut outside = 0;
        for seed in 0..500 {
            let module = module(seed);
            let mut validator = Validator::new(ValidationFlags::empty(), Capabilities::all());
            if let Err(error) = validator.validate(&module) {
                let text = format!("{:?}", error.into_inner());
                assert!(!text.contains("InvalidHandle"), "seed {seed}: {text}");
                assert!(!text.contains("Type("), "seed {seed}: {text}");
                outside += usize::from(!text.contains("ExpectedGlobalOrArgument"));
            }
        }
        assert!(
            outside < 50,
            "{outside} of 500 modules are refused outside the analyzer"
        );
    }
}
