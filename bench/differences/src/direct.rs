//! The smallest modules of all, built directly: a front end adds a Return, names, and types that fit.

use naga::{
    AddressSpace, ArraySize, Block, Expression, Function, FunctionArgument, GlobalVariable, Handle,
    ImageClass, ImageDimension, Literal, MemoryDecorations, Module, SampleLevel, Scalar,
    ScalarKind, Span, Statement, StorageAccess, StructMember, Type, TypeInner,
};

/// D2: see [`Sampled`].
pub fn d2() -> Module {
    Sampled {
        arguments: 3,
        sampled: [0, 2],
        pairs: [[0, 2], [2, 2]],
    }
    .module()
}

/// A module that D2 can be seen in: function 0 samples two of its arguments, function 1 calls it with two
/// literals, which can't be traced.
///
/// The analyzer asks only the image of a sampling for its type, so an argument can be image, sampler and
/// coordinate, and a literal can be given for it.
#[derive(Clone, Copy, Debug)]
pub struct Sampled {
    /// How many arguments function 0 has.
    pub arguments: u32,
    /// Those of them that it samples.
    pub sampled: [u32; 2],
    /// Image and sampler of each sampling, both among `sampled`.
    pub pairs: [[u32; 2]; 2],
}

impl Sampled {
    pub fn module(&self) -> Module {
        let mut module = Module::default();
        let ty = put_type(&mut module, image());
        let argument = FunctionArgument {
            name: None,
            ty,
            binding: None,
        };
        let mut callee = Function {
            arguments: vec![argument; self.arguments as usize],
            ..Function::default()
        };
        let leaves = self
            .sampled
            .map(|number| put(&mut callee, Expression::FunctionArgument(number)));
        for pair in self.pairs {
            let [image, sampler] = pair.map(|number| self.choose(leaves, number));
            put(&mut callee, sampling(image, sampler));
        }
        let function = module.functions.append(callee, Span::UNDEFINED);
        let caller = self.caller(function);
        module.functions.append(caller, Span::UNDEFINED);
        module
    }

    /// Calls function 0 with one literal for each sampled argument; the others are given the first again.
    fn caller(&self, function: Handle<Function>) -> Function {
        let mut caller = Function::default();
        let literals = [0, 1].map(|number| {
            let literal = Literal::U32(number);
            put(&mut caller, Expression::Literal(literal))
        });
        caller.body = block(Statement::Call {
            function,
            arguments: (0..self.arguments)
                .map(|number| self.choose(literals, number))
                .collect(),
            result: None,
        });
        caller
    }

    /// The second of two where the argument is the second sampled, else the first.
    fn choose<T: Copy>(&self, two: [T; 2], argument: u32) -> T {
        two[usize::from(argument == self.sampled[1])]
    }
}

/// D3: a binding array of buffers that can be stored to, which is its own index: such a global is not uniform.
///
/// The analyzer asks only the base of an Access for its type, so a pointer can be an index.
pub fn d3() -> Module {
    let mut module = Module::default();
    let number = put_type(&mut module, TypeInner::Scalar(Scalar::F32));
    let member = StructMember {
        name: None,
        ty: number,
        binding: None,
        offset: 0,
    };
    let buffer = TypeInner::Struct {
        members: vec![member],
        span: 4,
    };
    let base = put_type(&mut module, buffer);
    let size = ArraySize::Dynamic;
    let ty = put_type(&mut module, TypeInner::BindingArray { base, size });
    let access = StorageAccess::LOAD | StorageAccess::STORE;
    let variable = GlobalVariable {
        name: None,
        space: AddressSpace::Storage { access },
        binding: None,
        ty,
        init: None,
        memory_decorations: MemoryDecorations::empty(),
    };
    let global = module.global_variables.append(variable, Span::UNDEFINED);
    let mut function = Function::default();
    let base = put(&mut function, Expression::GlobalVariable(global));
    put(&mut function, Expression::Access { base, index: base });
    module.functions.append(function, Span::UNDEFINED);
    module
}

fn image() -> TypeInner {
    TypeInner::Image {
        dim: ImageDimension::D1,
        arrayed: false,
        class: ImageClass::Sampled {
            kind: ScalarKind::Float,
            multi: false,
        },
    }
}

fn sampling(image: Handle<Expression>, sampler: Handle<Expression>) -> Expression {
    Expression::ImageSample {
        image,
        sampler,
        gather: None,
        coordinate: image,
        array_index: None,
        offset: None,
        level: SampleLevel::Auto,
        depth_ref: None,
        clamp_to_edge: false,
    }
}

fn block(statement: Statement) -> Block {
    Block::from_vec(vec![statement])
}

fn put_type(module: &mut Module, inner: TypeInner) -> Handle<Type> {
    module
        .types
        .insert(Type { name: None, inner }, Span::UNDEFINED)
}

fn put(function: &mut Function, expression: Expression) -> Handle<Expression> {
    function.expressions.append(expression, Span::UNDEFINED)
}
