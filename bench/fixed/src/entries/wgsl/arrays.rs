//! Binding arrays with indices that are uniform and not, with and without the capability; ends that can't be
//! traced.

use super::{Program, CHECKED};
use crate::entries::Gathered;
use convert::{capabilities_named, Settings};

pub fn gather(list: &mut Gathered) {
    indices(list);
    list.programs(GLOBALS, &ENDS);
    list.programs(GLOBALS, &UNTRACED);
}

const GLOBALS: &str = "
enable wgpu_binding_array;
struct Buffer { x: f32 }
var<private> own: u32;
@group(0) @binding(0) var images: binding_array<texture_2d<f32>, 4>;
@group(0) @binding(1) var samplers: binding_array<sampler, 4>;
@group(0) @binding(2) var stored: binding_array<texture_storage_2d<rgba8unorm, read>, 4>;
@group(0) @binding(3) var<storage, read> buffers: binding_array<Buffer, 4>;
@group(0) @binding(4) var t: texture_2d<f32>;
@group(0) @binding(5) var s: sampler;
@group(0) @binding(6) var<uniform> given: u32;
@group(0) @binding(7) var<storage, read> fixed: array<u32>;
@group(0) @binding(8) var<storage, read_write> changing: array<u32>;
";

/// What reaches into a binding array, with INDEX for the index, and the capability that a non-uniform one wants.
const REACHES: [(&str, &str, &str); 3] = [
    (
        "images",
        "textureSampleLevel(images[INDEX], s, vec2(0.5), 0.0).x",
        "sampled",
    ),
    (
        "samplers",
        "textureSampleLevel(t, samplers[INDEX], vec2(0.5), 0.0).x",
        "sampled",
    ),
    (
        "stored",
        "textureLoad(stored[INDEX], vec2(0u)).x",
        "storage-images",
    ),
];

fn indices(list: &mut Gathered) {
    let mut reach = |name: &str, reached: &str, index: &str, capabilities: &str, what: &str| {
        let reached = reached.replace("INDEX", index);
        let source =
            format!("{GLOBALS}fn before() {{}}\nfn f(x: u32) -> f32 {{ return {reached}; }}\n");
        let capabilities = capabilities_named(capabilities).expect("it is a capability");
        let settings = Settings {
            capabilities,
            ..CHECKED
        };
        list.program_under(name, what, &source, settings);
    };
    for (name, reached, wanted) in REACHES {
        let other = if wanted == "sampled" {
            "storage-images"
        } else {
            "sampled"
        };
        let tried = [
            ("constant", "2", "", "a constant index"),
            ("uniform", "given", "", "an index from a uniform buffer"),
            (
                "fixed",
                "fixed[1]",
                "",
                "an index from storage that isn't written",
            ),
            (
                "argument",
                "x",
                wanted,
                "a non-uniform index, with the capability",
            ),
            (
                "argument-without",
                "x",
                other,
                "a non-uniform index, with another capability alone",
            ),
        ];
        for (index_name, index, capabilities, what) in tried {
            reach(
                &format!("{name}-{index_name}"),
                reached,
                index,
                capabilities,
                what,
            );
        }
    }
    let (_, images, _) = REACHES[0];
    for (name, index) in [
        ("private", "own"),
        ("changing", "changing[0]"),
        ("computed", "(given + x) % 4"),
    ] {
        let what = "a non-uniform index without the capability";
        reach(&format!("images-{name}-without"), images, index, "", what);
    }
    let what = "buffers behind a pointer ask for no capability";
    reach(
        "buffers-argument-without",
        "buffers[INDEX].x",
        "x",
        "",
        what,
    );
}

/// Elements of binding arrays as ends of samplings and of calls.
const ENDS: [Program; 4] = [
    (
        "element-call",
        "elements given to a callee: constant and uniform indices",
        "fn f(a: texture_2d<f32>, b: sampler) { _ = textureSampleLevel(a, b, vec2(0.5), 0.0); }
         fn g() { f(images[1], s); f(t, samplers[given]); f(images[given], samplers[0]); }",
    ),
    (
        "element-call-twice",
        "elements passed on through two calls",
        "fn f(a: texture_2d<f32>, b: sampler) { _ = textureSampleLevel(a, b, vec2(0.5), 0.0); }
         fn g(a: texture_2d<f32>) { f(a, samplers[fixed[0]]); }
         fn h() { g(images[given]); g(t); }",
    ),
    (
        "element-query",
        "elements queried: the base carries the global",
        "fn f() -> u32 { return textureDimensions(images[1]).x + textureDimensions(stored[given]).y; }",
    ),
    (
        "element-in-entry",
        "an index from the work group's number, which is uniform",
        "@compute @workgroup_size(1) fn main(@builtin(workgroup_id) group: vec3<u32>) {
             _ = textureSampleLevel(images[group.x], samplers[group.y], vec2(0.5), 0.0);
         }",
    ),
];

/// An element of an argument can't be traced. A function can't take a binding array, but the release refuses that
/// only after its analyzer.
const UNTRACED: [Program; 6] = [
    (
        "untraced-image",
        "an image in a sampling",
        "fn f(a: binding_array<texture_2d<f32>, 2>) { _ = textureSample(a[1], s, vec2(0.5)); }",
    ),
    (
        "untraced-sampler",
        "a sampler in a sampling",
        "fn f(b: binding_array<sampler, 2>) { _ = textureSample(t, b[1], vec2(0.5)); }",
    ),
    (
        "untraced-both",
        "both ends of a sampling",
        "fn f(a: binding_array<texture_2d<f32>, 2>, b: binding_array<sampler, 2>) {
             _ = textureSample(a[0], b[0], vec2(0.5));
         }",
    ),
    (
        "untraced-call-image",
        "an image in a call",
        "fn f(a: texture_2d<f32>) { _ = textureSample(a, s, vec2(0.5)); }
         fn g(a: binding_array<texture_2d<f32>, 2>) { f(t); f(a[1]); }",
    ),
    (
        "untraced-call-sampler",
        "a sampler in a call, through two calls",
        "fn f(b: sampler) { _ = textureSample(t, b, vec2(0.5)); }
         fn g(b: sampler) { f(b); }
         fn h(b: binding_array<sampler, 2>) { g(b[1]); }",
    ),
    (
        "untraced-call-both",
        "image and sampler of one mixed pair: the image comes first",
        "fn f(a: texture_2d<f32>, b: sampler) { _ = textureSample(a, b, vec2(0.5)); }
         fn g(a: binding_array<texture_2d<f32>, 2>, b: binding_array<sampler, 2>) { f(a[1], b[1]); }",
    ),
];
