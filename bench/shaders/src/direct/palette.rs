//! The types and globals that a module's functions draw from.

use super::Temper;
use crate::Random;
use naga::{
    AddressSpace, ArraySize, GlobalVariable, Handle, ImageClass, ImageDimension, MemoryDecorations,
    Module, Scalar, ScalarKind, Span, StorageAccess, StorageFormat, StructMember, Type, TypeInner,
    VectorSize,
};
use std::num::NonZeroU32;

/// What the type of an expression lets it be used for.
#[derive(Clone, Copy, Debug, PartialEq, Eq)]
pub enum Class {
    Float,
    Uint,
    Bool,
    Vec2,
    Vec4,
    Uint3,
    Matrix,
    /// To one f32.
    Pointer,
    /// To something that holds f32 and can be indexed.
    ArrayPointer,
    /// To a struct whose first member is an array of f32.
    StructPointer,
    Image,
    DepthImage,
    StorageImage,
    Sampler,
    /// An image or a sampler that can't be traced.
    ChosenImage,
    ChosenSampler,
    /// Binding arrays of each of these.
    Images,
    Samplers,
    StorageImages,
    Structures,
    /// To a binding array of buffers.
    Buffers,
    /// Of no use but to be counted.
    Other,
}

impl Class {
    /// What an index into it gives.
    pub fn element(self) -> Option<Class> {
        Some(match self {
            Class::Vec2 | Class::Vec4 => Class::Float,
            Class::Uint3 => Class::Uint,
            Class::ArrayPointer => Class::Pointer,
            Class::Images => Class::Image,
            Class::Samplers => Class::Sampler,
            Class::StorageImages => Class::StorageImage,
            Class::Structures => Class::Other,
            Class::Buffers => Class::StructPointer,
            _ => return None,
        })
    }
}

/// One global, and how the functions may use it.
pub struct Global {
    pub handle: Handle<GlobalVariable>,
    pub class: Class,
    /// Whether an entry point may store to it.
    pub writable: bool,
}

/// A module's types and globals.
pub struct Palette {
    pub float: Handle<Type>,
    pub vec2: Handle<Type>,
    pub vec4: Handle<Type>,
    pub uint3: Handle<Type>,
    pub array: Handle<Type>,
    uint: Handle<Type>,
    array_pointer: Handle<Type>,
    image: Handle<Type>,
    depth_image: Handle<Type>,
    sampler: Handle<Type>,
    pub globals: Vec<Global>,
}

impl Palette {
    pub fn new(module: &mut Module, random: &mut Random, temper: &Temper) -> Self {
        let mut put = |inner| {
            module
                .types
                .insert(Type { name: None, inner }, Span::UNDEFINED)
        };
        let vector = |size, scalar| TypeInner::Vector { size, scalar };
        let float = put(TypeInner::Scalar(Scalar::F32));
        let array = put(TypeInner::Array {
            base: float,
            size: ArraySize::Constant(SIXTEEN),
            stride: 4,
        });
        let mut palette = Palette {
            float,
            uint: put(TypeInner::Scalar(Scalar::U32)),
            vec2: put(vector(VectorSize::Bi, Scalar::F32)),
            vec4: put(vector(VectorSize::Quad, Scalar::F32)),
            uint3: put(vector(VectorSize::Tri, Scalar::U32)),
            array,
            array_pointer: put(TypeInner::Pointer {
                base: array,
                space: AddressSpace::Function,
            }),
            image: put(image(ImageClass::Sampled {
                kind: ScalarKind::Float,
                multi: false,
            })),
            depth_image: put(image(ImageClass::Depth { multi: false })),
            sampler: put(TypeInner::Sampler { comparison: false }),
            globals: Vec::new(),
        };
        for _ in 0..random.between(0, 14) {
            palette.add_global(module, random, temper);
        }
        palette
    }

    /// The type of an argument of this class; only those that a function can take are asked for.
    pub fn argument_type(&self, class: Class) -> Handle<Type> {
        match class {
            Class::Image => self.image,
            Class::DepthImage => self.depth_image,
            Class::Sampler => self.sampler,
            Class::Uint => self.uint,
            Class::ArrayPointer => self.array_pointer,
            _ => self.float,
        }
    }

    fn add_global(&mut self, module: &mut Module, random: &mut Random, temper: &Temper) {
        let (ty, space, class) = match random.below(16) {
            0..=3 => (self.image, AddressSpace::Handle, Class::Image),
            4 => (self.depth_image, AddressSpace::Handle, Class::DepthImage),
            5..=7 => (self.sampler, AddressSpace::Handle, Class::Sampler),
            8 => (
                put(module, storage_image()),
                AddressSpace::Handle,
                Class::StorageImage,
            ),
            9..=11 => self.binding_array(module, random, temper),
            _ => self.data(random, temper),
        };
        let writable = match space {
            AddressSpace::Private | AddressSpace::WorkGroup => true,
            AddressSpace::Storage { access } => access.contains(StorageAccess::STORE),
            _ => false,
        };
        let variable = GlobalVariable {
            name: None,
            space,
            binding: None,
            ty,
            init: None,
            memory_decorations: MemoryDecorations::empty(),
        };
        self.globals.push(Global {
            handle: module.global_variables.append(variable, Span::UNDEFINED),
            class,
            writable: writable && class == Class::ArrayPointer,
        });
    }

    fn binding_array(
        &self,
        module: &mut Module,
        random: &mut Random,
        temper: &Temper,
    ) -> (Handle<Type>, AddressSpace, Class) {
        let (base, space, class) = match random.below(5) {
            0 if temper.structures => (
                put(
                    module,
                    TypeInner::AccelerationStructure {
                        vertex_return: false,
                    },
                ),
                AddressSpace::Handle,
                Class::Structures,
            ),
            0 | 1 => (self.image, AddressSpace::Handle, Class::Images),
            2 => (self.sampler, AddressSpace::Handle, Class::Samplers),
            3 => (
                put(module, storage_image()),
                AddressSpace::Handle,
                Class::StorageImages,
            ),
            _ => {
                let space = if random.chance(50) {
                    AddressSpace::Uniform
                } else {
                    storage(random)
                };
                (put(module, buffer(self.array)), space, Class::Buffers)
            }
        };
        let size = ArraySize::Constant(SIXTEEN);
        (
            put(module, TypeInner::BindingArray { base, size }),
            space,
            class,
        )
    }

    fn data(&self, random: &mut Random, temper: &Temper) -> (Handle<Type>, AddressSpace, Class) {
        let space = match random.below(if temper.entries { 4 } else { 8 }) {
            0 => AddressSpace::Private,
            1 => AddressSpace::WorkGroup,
            2 => AddressSpace::Uniform,
            3 => storage(random),
            4 => AddressSpace::Immediate,
            5 => AddressSpace::TaskPayload,
            6 => AddressSpace::RayPayload,
            _ => AddressSpace::IncomingRayPayload,
        };
        let ty = match space {
            AddressSpace::Immediate => self.vec4,
            _ => self.array,
        };
        (ty, space, Class::ArrayPointer)
    }
}

const SIXTEEN: NonZeroU32 = NonZeroU32::new(16).expect("it is not zero");

fn put(module: &mut Module, inner: TypeInner) -> Handle<Type> {
    module
        .types
        .insert(Type { name: None, inner }, Span::UNDEFINED)
}

fn image(class: ImageClass) -> TypeInner {
    TypeInner::Image {
        dim: ImageDimension::D2,
        arrayed: false,
        class,
    }
}

fn storage_image() -> TypeInner {
    image(ImageClass::Storage {
        format: StorageFormat::Rgba8Unorm,
        access: StorageAccess::LOAD,
    })
}

fn storage(random: &mut Random) -> AddressSpace {
    let access = if random.chance(50) {
        StorageAccess::LOAD
    } else {
        StorageAccess::LOAD | StorageAccess::STORE
    };
    AddressSpace::Storage { access }
}

fn buffer(member: Handle<Type>) -> TypeInner {
    TypeInner::Struct {
        members: vec![StructMember {
            name: None,
            ty: member,
            binding: None,
            offset: 0,
        }],
        span: 64,
    }
}
