//! A module file back to a naga module, so that the release can be asked about a file that was written record by
//! record.
//!
//! This is no inverse of `convert` for all files: a type has to be found for every expression, and only plain
//! choices are tried. What counts is that the module is converted to the very file it came from, which is
//! checked; whether the release then has an answer to compare is for the release to say.

mod expressions;
mod statements;

use convert::{module_file, Settings};
use expressions::Expressions;
use files::{ModuleFile, Sheet};
use naga::valid::Capabilities;
use naga::{
    AddressSpace, ArraySize, Binding, BuiltIn, EntryPoint, Function, FunctionArgument,
    FunctionResult, GlobalVariable, Handle, ImageClass, ImageDimension, LocalVariable,
    MemoryDecorations, Module, Scalar, ScalarKind, ShaderStage, Span, StorageAccess, StorageFormat,
    Type, TypeInner, VectorSize,
};
use std::num::NonZeroU32;

/// A module that is converted to exactly this file, if one is found.
pub fn raised(file: &ModuleFile) -> Option<(Module, Settings)> {
    let settings = settings(file)?;
    let mut module = Module::default();
    let types = Types::new(&mut module);
    for (number, &space) in file.spaces.iter().enumerate() {
        let variable = GlobalVariable {
            name: None,
            space: address_space(space)?,
            binding: None,
            ty: types.of_global(file, number as u16, space),
            init: None,
            memory_decorations: MemoryDecorations::empty(),
        };
        module.global_variables.append(variable, Span::UNDEFINED);
    }
    // A built-in is the argument of an entry point, and those come behind all functions.
    let has_built_in = |sheet: &Sheet| sheet.arguments.iter().any(|&byte| byte != 0);
    let functions = file.sheets.iter().position(has_built_in);
    let (functions, entries) = file.sheets.split_at(functions.unwrap_or(file.sheets.len()));
    for sheet in functions {
        let function = function(&module, &types, sheet)?;
        module.functions.append(function, Span::UNDEFINED);
    }
    for (number, sheet) in entries.iter().enumerate() {
        let function = entry_function(&module, &types, sheet)?;
        module.entry_points.push(compute(number, function));
    }
    let converted = module_file(&module, settings).ok()?;
    (converted == *file).then_some((module, settings))
}

/// The release checks control flow in all functions or in none.
fn settings(file: &ModuleFile) -> Option<Settings> {
    let flag = file.sheets.first().map_or(0, |sheet| sheet.flag);
    let indexing = [
        Capabilities::TEXTURE_AND_SAMPLER_BINDING_ARRAY_NON_UNIFORM_INDEXING,
        Capabilities::STORAGE_TEXTURE_BINDING_ARRAY_NON_UNIFORM_INDEXING,
        Capabilities::BUFFER_BINDING_ARRAY_NON_UNIFORM_INDEXING,
        Capabilities::STORAGE_BUFFER_BINDING_ARRAY_NON_UNIFORM_INDEXING,
    ];
    let capabilities = indexing
        .into_iter()
        .enumerate()
        .filter(|(bit, _)| file.capabilities >> bit & 1 == 1)
        .map(|(_, capability)| capability)
        .collect();
    file.sheets
        .iter()
        .all(|sheet| sheet.flag == flag)
        .then_some(Settings {
            capabilities,
            check_control_flow: flag == 1,
        })
}

fn address_space(space: u8) -> Option<AddressSpace> {
    Some(match space {
        1 => AddressSpace::Private,
        2 => AddressSpace::RayPayload,
        3 => AddressSpace::IncomingRayPayload,
        4 => AddressSpace::WorkGroup,
        5 => AddressSpace::TaskPayload,
        6 => AddressSpace::Uniform,
        7 => AddressSpace::Immediate,
        8 => AddressSpace::Storage {
            access: StorageAccess::LOAD,
        },
        9 => AddressSpace::Storage {
            access: StorageAccess::LOAD | StorageAccess::STORE,
        },
        HANDLE => AddressSpace::Handle,
        _ => return None,
    })
}

const HANDLE: u8 = 10;

/// The types that are tried.
struct Types {
    float: Handle<Type>,
    uint: Handle<Type>,
    uint3: Handle<Type>,
    /// What locals, and globals that aren't handles, hold: it can be indexed twice, and loaded cooperatively.
    data: Handle<Type>,
    data_pointer: Handle<Type>,
    image: Handle<Type>,
    images: Handle<Type>,
    storage_images: Handle<Type>,
}

impl Types {
    fn new(module: &mut Module) -> Self {
        let mut put = |inner| {
            module
                .types
                .insert(Type { name: None, inner }, Span::UNDEFINED)
        };
        let image_of = |class| TypeInner::Image {
            dim: ImageDimension::D2,
            arrayed: false,
            class,
        };
        let binding_array = |base| TypeInner::BindingArray {
            base,
            size: ArraySize::Constant(NonZeroU32::MIN),
        };
        let data = put(TypeInner::Matrix {
            columns: VectorSize::Quad,
            rows: VectorSize::Quad,
            scalar: Scalar::F32,
        });
        let image = put(image_of(ImageClass::Sampled {
            kind: ScalarKind::Float,
            multi: false,
        }));
        let storage_image = put(image_of(ImageClass::Storage {
            format: StorageFormat::Rgba8Unorm,
            access: StorageAccess::LOAD,
        }));
        Types {
            float: put(TypeInner::Scalar(Scalar::F32)),
            uint: put(TypeInner::Scalar(Scalar::U32)),
            uint3: put(TypeInner::Vector {
                size: VectorSize::Tri,
                scalar: Scalar::U32,
            }),
            data,
            data_pointer: put(TypeInner::Pointer {
                base: data,
                space: AddressSpace::Function,
            }),
            image,
            images: put(binding_array(image)),
            storage_images: put(binding_array(storage_image)),
        }
    }

    /// A handle is an image, or a binding array where some Access reaches into it.
    fn of_global(&self, file: &ModuleFile, number: u16, space: u8) -> Handle<Type> {
        if space != HANDLE {
            return self.data;
        }
        let mut subs = file
            .sheets
            .iter()
            .flat_map(|sheet| accesses(sheet, 2, number));
        match subs.next() {
            None => self.image,
            Some(1) => self.storage_images,
            Some(_) => self.images,
        }
    }

    /// An argument is an image, or a pointer where some Access reaches into it.
    fn of_argument(&self, sheet: &Sheet, number: u16) -> Handle<Type> {
        if accesses(sheet, 1, number).next().is_some() {
            self.data_pointer
        } else {
            self.image
        }
    }
}

/// The subs of every Access and AccessIndex whose base is the leaf of this kind and number.
fn accesses(sheet: &Sheet, kind: u8, number: u16) -> impl Iterator<Item = u8> + '_ {
    sheet
        .expressions
        .iter()
        .filter(move |record| {
            matches!(record.kind, 5 | 6)
                && release::operands(sheet, record.first, record.count)
                    .first()
                    .and_then(|&base| sheet.expressions.get(usize::from(base)))
                    .is_some_and(|base| (base.kind, base.number) == (kind, number))
        })
        .map(|record| record.sub)
}

/// A function; its arguments have no bindings.
fn function(module: &Module, types: &Types, sheet: &Sheet) -> Option<Function> {
    let argument = |number| FunctionArgument {
        name: None,
        ty: types.of_argument(sheet, number),
        binding: None,
    };
    let function = Function {
        arguments: (0..sheet.arguments.len() as u16).map(argument).collect(),
        result: Some(FunctionResult {
            ty: types.float,
            binding: None,
        }),
        ..Function::default()
    };
    filled(function, module, types, sheet)
}

/// An entry point's function; each of its arguments is a built-in.
fn entry_function(module: &Module, types: &Types, sheet: &Sheet) -> Option<Function> {
    let argument = |&byte: &u8| {
        let built_in = match byte {
            0 => BuiltIn::GlobalInvocationId,
            1 => BuiltIn::WorkGroupId,
            2 => BuiltIn::WorkGroupSize,
            3 => BuiltIn::NumWorkGroups,
            _ => return None,
        };
        Some(FunctionArgument {
            name: None,
            ty: types.uint3,
            binding: Some(Binding::BuiltIn(built_in)),
        })
    };
    let function = Function {
        arguments: sheet
            .arguments
            .iter()
            .map(argument)
            .collect::<Option<_>>()?,
        ..Function::default()
    };
    filled(function, module, types, sheet)
}

fn compute(number: usize, function: Function) -> EntryPoint {
    EntryPoint {
        name: format!("main{number}"),
        stage: ShaderStage::Compute,
        early_depth_test: None,
        workgroup_size: [1; 3],
        workgroup_size_overrides: None,
        function,
        mesh_info: None,
        task_payload: None,
        incoming_ray_payload: None,
    }
}

/// The function with a sheet's expressions, locals, names and statements.
fn filled(
    mut function: Function,
    module: &Module,
    types: &Types,
    sheet: &Sheet,
) -> Option<Function> {
    let local = put_local(&mut function, types.data, None);
    let expressions = Expressions::add(&mut function, module, sheet, local, types.float)?;
    for &initialiser in &sheet.initialisers {
        let init = expressions.get(initialiser)?;
        put_local(&mut function, types.uint, Some(init));
    }
    for &named in &sheet.named {
        let handle = expressions.get(named)?;
        function.named_expressions.insert(handle, String::new());
    }
    function.body = statements::body(module, sheet, &expressions)?;
    Some(function)
}

fn put_local(
    function: &mut Function,
    ty: Handle<Type>,
    init: Option<Handle<naga::Expression>>,
) -> Handle<LocalVariable> {
    let variable = LocalVariable {
        name: None,
        ty,
        init,
    };
    function.local_variables.append(variable, Span::UNDEFINED)
}

#[cfg(test)]
mod tests {
    use super::*;
    use files::shapes::{module, one, zero_level};

    /// Every statement and most expressions; that the module is converted to the same file is [`raised`]'s own check.
    #[test]
    fn modules_are_found() {
        let file = one(1, |sheet| {
            let image = sheet.expression(2, 0, 0, &[]);
            let local = sheet.expression(3, 0, 0, &[]);
            let sampled = sheet.expression(13, 1, 0, &zero_level(image, image, local));
            sheet.emit(sampled, sampled + 1);
            sheet.emit(1, 1);
            for (kind, arms) in [(8, 2), (9, 3), (10, 2)] {
                let holder = sheet.open(kind, 0, &[local]);
                for _ in 0..arms {
                    let arm = sheet.open(11, u8::from(kind == 9), &[]);
                    sheet.statement(1, 0, &[]);
                    sheet.close(arm);
                }
                sheet.close(holder);
            }
            sheet.statement(5, 0, &[local, sampled]);
            sheet.statement(4, 0, &[sampled]);
        });
        let (module, settings) = raised(&file).expect("there is one");
        assert_eq!(module.functions.len(), 1);
        assert!(!settings.check_control_flow);
    }

    #[test]
    fn what_no_module_has_is_not_found() {
        let sub_3 = one(1, |sheet| {
            sheet.expression(2, 0, 0, &[]);
            sheet.expression(5, 3, 0, &[0, 0]);
        });
        let own_operand = one(0, |sheet| _ = sheet.expression(7, 0, 0, &[0]));
        let unknown_built_in = one(0, |sheet| sheet.arguments = vec![4]);
        let badly_nested = one(0, |sheet| {
            let block = sheet.open(7, 0, &[]);
            sheet.statements[usize::from(block)].end = 9;
        });
        let mut two_flags = module(0, vec![Sheet::default(); 2]);
        two_flags.sheets[1].flag = 1;
        for file in [
            sub_3,
            own_operand,
            unknown_built_in,
            badly_nested,
            two_flags,
        ] {
            assert!(raised(&file).is_none(), "{file:?}");
        }
    }
}
