//! Modules whose files are known record by record.

use convert::{module_file, read_shader, Error, Part, Settings};
use files::{Expression, ModuleFile, Sheet, ABSENT};
use naga::valid::Capabilities;
use naga::{Block, Function, Module, Span, Statement, SwitchCase, SwitchValue};

fn settings() -> Settings {
    Settings {
        capabilities: Capabilities::empty(),
        check_control_flow: true,
    }
}

fn from_wgsl(source: &str) -> Result<ModuleFile, Error> {
    let module = naga::front::wgsl::parse_str(source).expect("it is WGSL");
    module_file(&module, settings())
}

fn sheet_of(source: &str) -> Sheet {
    from_wgsl(source)
        .expect("it is within the limits")
        .sheets
        .remove(0)
}

/// A module of one function that has this body and no expressions.
fn with_body(body: Block) -> Module {
    let mut module = Module::default();
    let function = Function {
        body,
        ..Function::default()
    };
    module.functions.append(function, Span::UNDEFINED);
    module
}

/// Kind, sub and end of every statement.
fn shape(sheet: &Sheet) -> Vec<(u8, u8, u16)> {
    sheet
        .statements
        .iter()
        .map(|statement| (statement.kind, statement.sub, statement.end))
        .collect()
}

fn operands(sheet: &Sheet, expression: &Expression) -> Vec<u16> {
    let first = usize::from(expression.first);
    sheet.operands[first..first + usize::from(expression.count)].to_vec()
}

#[test]
fn an_empty_module_is_the_first_case_of_01() {
    let file = module_file(&Module::default(), settings()).expect("it is within the limits");
    assert_eq!(file.encode(), [0, 0, 0, 6, 1, 0, 0, 0, 0, 0]);
}

#[test]
fn entry_points_follow_the_functions() {
    let file = from_wgsl(
        "@compute @workgroup_size(1)
         fn main(@builtin(num_workgroups) n: vec3<u32>, @builtin(workgroup_id) w: vec3<u32>,
                 @builtin(local_invocation_id) l: vec3<u32>) { f(1.0); }
         fn f(x: f32) {}",
    )
    .expect("it is within the limits");
    let arguments: Vec<_> = file.sheets.iter().map(|sheet| &sheet.arguments).collect();
    assert_eq!(arguments, [&vec![0], &vec![3, 1, 0]]);
}

#[test]
fn spaces_and_capabilities_are_coded() {
    let module = naga::front::wgsl::parse_str(
        "var<private> a: f32; var<workgroup> b: f32;
         @group(0) @binding(0) var<uniform> c: f32;
         @group(0) @binding(1) var<storage> d: f32;
         @group(0) @binding(2) var<storage, read_write> e: f32;
         @group(0) @binding(3) var f: sampler;",
    )
    .expect("it is WGSL");
    let settings = Settings {
        capabilities: Capabilities::BUFFER_BINDING_ARRAY_NON_UNIFORM_INDEXING,
        check_control_flow: false,
    };
    let file = module_file(&module, settings).expect("it is within the limits");
    assert_eq!(file.spaces, [1, 4, 6, 8, 9, 10]);
    assert_eq!(file.capabilities, 4);
}

#[test]
fn arms_are_in_preorder_with_their_ends() {
    let sheet = sheet_of(
        "fn f() { loop { if true { return; } else { discard; } continuing { break if false; } } }",
    );
    let expected = [
        (10, 0, 8),
        (11, 0, 7),
        (8, 0, 7),
        (11, 0, 5),
        (4, 0, 5),
        (11, 0, 7),
        (2, 0, 7),
        (11, 0, 8),
        (4, 0, 9),
    ];
    assert_eq!(shape(&sheet), expected);
    let break_if = sheet.statements[0];
    assert_eq!(break_if.count, 1);
}

#[test]
fn a_falling_case_has_sub_1() {
    let mut block = Block::new();
    let case = |fall_through| SwitchCase {
        value: SwitchValue::Default,
        body: Block::new(),
        fall_through,
    };
    let mut module = with_body(Block::new());
    let (_, function) = module
        .functions
        .iter_mut()
        .next()
        .expect("there is one function");
    let selector = function.expressions.append(
        naga::Expression::Literal(naga::Literal::U32(0)),
        Span::UNDEFINED,
    );
    block.push(
        Statement::Switch {
            selector,
            cases: vec![case(true), case(false)],
        },
        Span::UNDEFINED,
    );
    function.body = block;
    let sheet = module_file(&module, settings())
        .expect("it is within the limits")
        .sheets
        .remove(0);
    assert_eq!(shape(&sheet), [(9, 0, 3), (11, 1, 2), (11, 0, 3)]);
}

#[test]
fn a_sampling_has_all_its_operands_in_order() {
    let sheet = sheet_of(
        "@group(0) @binding(0) var t: texture_2d_array<f32>;
         @group(0) @binding(1) var s: sampler;
         fn f(at: vec2<f32>, layer: u32, x: vec2<f32>, y: vec2<f32>) -> vec4<f32> {
             return textureSampleGrad(t, s, at, layer, x, y, vec2<i32>(1, 2));
         }",
    );
    let sample = sheet
        .expressions
        .iter()
        .find(|record| record.kind == 13)
        .expect("there is a sampling");
    assert_eq!(sample.sub, 4);
    let places = operands(&sheet, sample);
    let kinds: Vec<_> = places
        .iter()
        .map(|&place| match place {
            ABSENT => None,
            _ => {
                let record = sheet.expressions[usize::from(place)];
                Some((record.kind, record.number))
            }
        })
        .collect();
    let (image, sampler) = (Some((2, 0)), Some((2, 1)));
    let argument = |number| Some((1, number));
    assert_eq!(kinds[..2], [image, sampler]);
    assert_eq!(
        kinds[2..6],
        [argument(0), argument(1), argument(2), argument(3)]
    );
    assert_eq!(kinds[6], None);
    assert!(kinds[7].is_some());
}

#[test]
fn an_access_says_what_it_reaches_into() {
    let sheet = sheet_of(
        "enable wgpu_binding_array;
         struct Buffer { x: f32 }
         @group(0) @binding(0) var plain: binding_array<texture_2d<f32>, 4>;
         @group(0) @binding(1) var stored: binding_array<texture_storage_2d<rgba8unorm, read>, 4>;
         @group(0) @binding(2) var samplers: binding_array<sampler, 4>;
         @group(0) @binding(3) var<storage> buffers: binding_array<Buffer, 4>;
         fn f(i: u32) -> vec4<f32> {
             let a = textureSampleLevel(plain[i], samplers[i], vec2(0.5), 0.0);
             return a + textureLoad(stored[i], vec2(0u)) + buffers[i].x;
         }",
    );
    let subs: Vec<_> = sheet
        .expressions
        .iter()
        .filter(|record| record.kind == 5)
        .map(|record| record.sub)
        .collect();
    assert_eq!(subs, [2, 2, 1, 0]);
}

#[test]
fn what_has_no_kind_is_named() {
    let error = from_wgsl(
        "@group(0) @binding(0) var<storage, read_write> a: atomic<u32>;
         fn unused() {}
         fn counting() { atomicAdd(&a, 1u); }",
    )
    .expect_err("there is no kind for it");
    assert_eq!(
        error.to_string(),
        "function 1 `counting` has the statement Atomic, which has no kind in a module file"
    );
}

#[test]
fn limits_are_named() {
    let functions: String = (0..65)
        .map(|number| format!("fn f{number}() {{}}\n"))
        .collect();
    let error = from_wgsl(&functions).expect_err("65 functions are too many");
    assert!(matches!(
        error,
        Error::TooMany {
            function: None,
            part: Part::Functions,
            count: 65
        }
    ));

    let barriers = vec![Statement::ControlBarrier(naga::Barrier::STORAGE); 1025];
    let error = module_file(&with_body(barriers.into()), settings())
        .expect_err("1,025 statements are too many");
    assert_eq!(
        error.to_string(),
        "function 0 `` has 1025 statements, arms counted, 1024 are allowed"
    );
}

#[test]
fn files_are_read_by_their_extension() {
    let folder = std::env::temp_dir().join(format!("convert-{}", std::process::id()));
    std::fs::create_dir_all(&folder).expect("the folder can be made");
    let capability_and_memory_model: Vec<u8> = [
        0x0723_0203_u32,
        0x0001_0000,
        0,
        1,
        0,
        (2 << 16) | 17,
        1,
        (3 << 16) | 14,
        0,
        1,
    ]
    .iter()
    .flat_map(|word| word.to_le_bytes())
    .collect();
    for (name, bytes, functions) in [
        ("a.wgsl", b"fn f() {} fn g() {}".as_slice(), Ok(2)),
        ("a.spv", &capability_and_memory_model, Ok(0)),
        ("a.frag", b"#version 450\nvoid main() {}\n", Ok(1)),
        ("b.wgsl", b"fn", Err("isn't accepted by naga")),
        ("c.wgsl", b"\xff", Err("isn't UTF-8 text")),
        ("a.txt", b"", Err("isn't named")),
    ] {
        let path = folder.join(name);
        std::fs::write(&path, bytes).expect("the file can be written");
        match (read_shader(&path), functions) {
            (Ok(module), Ok(count)) => assert_eq!(module.functions.len(), count, "{name}"),
            (Err(error), Err(start)) => assert!(error.to_string().starts_with(start), "{name}"),
            (got, _) => panic!("{name}: {:?}", got.map(|_| ())),
        }
    }
    assert!(read_shader(&folder.join("missing.wgsl")).is_err());
    std::fs::remove_dir_all(&folder).expect("the folder can be removed");
}
