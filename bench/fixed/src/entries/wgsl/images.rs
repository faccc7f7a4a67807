//! Images and samplers: sampled in every way, and passed through calls.

use super::Program;
use crate::entries::Gathered;

pub fn gather(list: &mut Gathered) {
    chains(list);
    list.programs(GLOBALS, &CALLS);
    list.programs(GLOBALS, &SAMPLINGS);
    many_pairs(list);
}

const GLOBALS: &str = "
@group(0) @binding(0) var t: texture_2d<f32>;
@group(0) @binding(1) var u: texture_2d<f32>;
@group(0) @binding(2) var s: sampler;
@group(0) @binding(3) var r: sampler;
@group(0) @binding(4) var layers: texture_2d_array<f32>;
@group(0) @binding(5) var depth: texture_depth_2d;
@group(0) @binding(6) var comparing: sampler_comparison;
@group(0) @binding(7) var<uniform> place: vec2<f32>;
";

/// An image, a sampler or both passed through one, two and three calls, and what each function on the way has.
fn chains(list: &mut Gathered) {
    let passed = [
        ("image", "a: texture_2d<f32>", "a", "a, s", "t"),
        ("sampler", "b: sampler", "b", "t, b", "s"),
        (
            "both",
            "a: texture_2d<f32>, b: sampler",
            "a, b",
            "a, b",
            "t, s",
        ),
    ];
    for (name, parameters, on, sampled, given) in passed {
        for calls in 1..=3 {
            let mut source = format!(
                "{GLOBALS}fn f0({parameters}) -> vec4<f32> {{ return textureSample({sampled}, place); }}\n"
            );
            for number in 1..calls {
                let callee = number - 1;
                source.push_str(&format!(
                    "fn f{number}({parameters}) -> vec4<f32> {{ return f{callee}({on}); }}\n"
                ));
            }
            let last = calls - 1;
            source.push_str(&format!(
                "@fragment fn main() -> @location(0) vec4<f32> {{ return f{last}({given}); }}\n"
            ));
            let what = "passed through so many calls to its sampling";
            list.program(&format!("chain-{name}-{calls}"), what, &source);
        }
    }
}

/// Callers and callees: shared ones, arguments in other orders, calls wherever a statement may stand.
const CALLS: [Program; 17] = [
    (
        "shared-two-callers",
        "two callers give a callee different images",
        "fn f(a: texture_2d<f32>) { _ = textureSample(a, s, place); }
         fn one() { f(t); }
         fn other() { f(u); }",
    ),
    (
        "shared-three-callers",
        "two callers and one that calls them both, and the callee too",
        "fn f(a: texture_2d<f32>, b: sampler) { _ = textureSample(a, b, place); }
         fn one(b: sampler) { f(t, b); }
         fn other(a: texture_2d<f32>) { f(a, r); }
         fn both() { one(s); other(u); f(u, s); }",
    ),
    (
        "shared-one-caller-twice",
        "one caller gives a callee two images",
        "fn f(a: texture_2d<f32>) { _ = textureSample(a, s, place); }
         fn g() { f(t); f(u); f(t); }",
    ),
    (
        "diamond",
        "two ways to the same sampling",
        "fn f(a: texture_2d<f32>, b: sampler) -> f32 { return textureSample(a, b, place).x; }
         fn left(a: texture_2d<f32>) -> f32 { return f(a, s); }
         fn right(a: texture_2d<f32>) -> f32 { return f(a, r); }
         @fragment fn main() -> @location(0) vec4<f32> { return vec4(left(t) + right(t)); }",
    ),
    (
        "exchanged",
        "a function passes its arguments on in the other order",
        "fn f(a: texture_2d<f32>, b: texture_2d<f32>) { _ = textureSample(a, s, place); _ = textureSample(b, r, place); }
         fn g(a: texture_2d<f32>, b: texture_2d<f32>) { f(b, a); }
         fn h() { g(t, u); }",
    ),
    (
        "same-twice",
        "one image for two arguments",
        "fn f(a: texture_2d<f32>, b: texture_2d<f32>) { _ = textureSample(a, s, place); _ = textureSample(b, r, place); }
         fn g() { f(t, t); }",
    ),
    (
        "mixed-both-lists",
        "a function with pairs and all three kinds of mixed pair",
        "fn f(a: texture_2d<f32>, b: sampler) {
             _ = textureSample(a, b, place); _ = textureSample(t, b, place);
             _ = textureSample(a, s, place); _ = textureSample(t, s, place);
         }
         fn g(b: sampler) { f(u, b); }",
    ),
    (
        "result-unused",
        "a call whose result nothing uses",
        "fn f(a: texture_2d<f32>) -> f32 { return textureSample(a, s, place).x; }
         fn g() { _ = f(t); }",
    ),
    (
        "call-never-run",
        "a call in a branch that never runs",
        "fn f(a: texture_2d<f32>) { _ = textureSample(a, s, place); }
         fn g() { if false { f(t); } }",
    ),
    (
        "call-after-return",
        "a call behind a Return in the other branch",
        "fn f(a: texture_2d<f32>) { _ = textureSample(a, s, place); }
         fn g(x: bool) { if x { return; } f(t); }",
    ),
    (
        "call-in-loop",
        "calls in a loop's body and its continuing arm",
        "fn f(a: texture_2d<f32>) { _ = textureSample(a, s, place); }
         fn g() { loop { f(t); continuing { f(u); break if place.x > 1.0; } } }",
    ),
    (
        "call-in-switch",
        "calls in a switch's cases",
        "fn f(a: texture_2d<f32>, b: sampler) { _ = textureSample(a, b, place); }
         fn g(x: i32) { switch x { case 0: { f(t, s); } case 1, 2: { f(u, s); } default: { f(t, r); } } }",
    ),
    (
        "not-sampled",
        "an argument that is loaded and queried, but not sampled",
        "fn f(a: texture_2d<f32>) -> vec4<f32> { return textureLoad(a, textureDimensions(a) - 1u, 0); }
         fn g() { _ = f(t); }",
    ),
    (
        "never-called",
        "mixed pairs that no caller resolves",
        "fn f(a: texture_2d<f32>, b: sampler) { _ = textureSample(a, b, place); }
         @fragment fn main() {}",
    ),
    (
        "two-entries",
        "two entry points with different pairs from one callee",
        "fn f(a: texture_2d<f32>, b: sampler) -> vec4<f32> { return textureSampleLevel(a, b, place, 0.0); }
         @vertex fn first() -> @builtin(position) vec4<f32> { return f(t, r); }
         @fragment fn second() -> @location(0) vec4<f32> { return f(u, s); }",
    ),
    (
        "nested-calls",
        "a call's result given to another call",
        "fn f(a: texture_2d<f32>, x: vec2<f32>) -> vec2<f32> { return textureSampleLevel(a, s, x, 0.0).xy; }
         fn g() -> vec2<f32> { return f(t, f(u, place)); }",
    ),
    (
        "uses-through-calls",
        "globals that a callee reads count for its callers",
        "fn f() -> vec4<f32> { return textureSample(t, s, place); }
         fn g() -> vec4<f32> { return f(); }
         @fragment fn main() -> @location(0) vec4<f32> { return g(); }",
    ),
];

/// Every level, with and without array index, depth and offset; loads and queries.
const SAMPLINGS: [Program; 13] = [
    (
        "sample-auto",
        "level Auto",
        "fn f() -> f32 { return textureSample(t, s, place).x; }",
    ),
    (
        "sample-offset",
        "level Auto with an offset",
        "fn f() -> f32 { return textureSample(t, s, place, vec2<i32>(1, 2)).x; }",
    ),
    (
        "sample-layer",
        "an array of layers",
        "fn f(x: u32) -> f32 { return textureSample(layers, s, place, x).x; }",
    ),
    (
        "sample-exact",
        "level Exact",
        "fn f() -> f32 { return textureSampleLevel(t, s, place, place.x).x; }",
    ),
    (
        "sample-bias",
        "level Bias",
        "fn f() -> f32 { return textureSampleBias(t, s, place, place.x).x; }",
    ),
    (
        "sample-gradient",
        "level Gradient",
        "fn f() -> f32 { return textureSampleGrad(t, s, place, place, place.yx).x; }",
    ),
    (
        "sample-zero",
        "level Zero, clamped",
        "fn f() -> f32 { return textureSampleBaseClampToEdge(t, s, place).x; }",
    ),
    (
        "sample-compare",
        "a depth image compared",
        "fn f() -> f32 { return textureSampleCompare(depth, comparing, place, place.x); }",
    ),
    (
        "sample-compare-level",
        "a depth image compared at level zero",
        "fn f() -> f32 { return textureSampleCompareLevel(depth, comparing, place, 0.5); }",
    ),
    (
        "gather",
        "gathered, plainly and compared",
        "fn f() -> vec4<f32> {
             return textureGather(1, t, s, place) + textureGatherCompare(depth, comparing, place, 0.5);
         }",
    ),
    (
        "load",
        "loads by level and by layer, of a global and of an argument",
        "fn f(a: texture_2d<f32>, x: u32) -> vec4<f32> {
             return textureLoad(t, vec2(x), 0) + textureLoad(layers, vec2(1u), x, 0) + textureLoad(a, vec2(0u), 1);
         }",
    ),
    (
        "query",
        "queries with and without a level",
        "fn f(x: u32) -> u32 {
             return textureDimensions(t).x + textureDimensions(u, x).y + textureNumLevels(t) + textureNumLayers(layers);
         }",
    ),
    (
        "query-then-read",
        "one image queried and sampled, another only queried",
        "fn f() -> f32 {
             return textureSample(t, s, place / vec2<f32>(textureDimensions(t))).x + f32(textureDimensions(u).x);
         }",
    ),
];

/// 256 pairs, the most that there may be: 16 samplers in the callee, 16 images from the caller.
fn many_pairs(list: &mut Gathered) {
    let mut source = String::new();
    for number in 0..16 {
        source.push_str(&format!(
            "@group(0) @binding({number}) var s{number}: sampler;\n\
             @group(1) @binding({number}) var t{number}: texture_2d<f32>;\n"
        ));
    }
    source.push_str("fn f(a: texture_2d<f32>) {\nlet c = vec2<f32>();\n");
    for number in 0..16 {
        source.push_str(&format!("_ = textureSample(a, s{number}, c);\n"));
    }
    source.push_str("}\nfn g() {\n");
    for number in 0..16 {
        source.push_str(&format!("f(t{number});\n"));
    }
    source.push_str("}\n");
    list.program("pairs-256", "256 pairs through calls", &source);
}
