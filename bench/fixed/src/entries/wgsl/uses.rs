//! Uses of globals, references and origins: reads, writes, queries, names, initialisers, stores, operators.

use super::Program;
use crate::entries::Gathered;

pub fn gather(list: &mut Gathered) {
    list.programs(GLOBALS, &USES);
    list.programs(GLOBALS, &VALUES);
}

const GLOBALS: &str = "
struct Inner { y: vec4<f32>, z: array<f32, 4> }
struct Numbers { x: f32, inner: Inner }
var<private> own: f32;
var<private> own_numbers: array<f32, 4>;
var<workgroup> group_numbers: array<f32, 4>;
@group(0) @binding(0) var<storage, read> fixed: Numbers;
@group(0) @binding(1) var<storage, read_write> changing: array<Numbers>;
@group(0) @binding(2) var<uniform> given: vec4<f32>;
@group(0) @binding(3) var t: texture_2d<f32>;
@group(0) @binding(4) var s: sampler;
override tuned: f32 = 1.0;
";

const USES: [Program; 14] = [
    (
        "phony-idle",
        "phony assignments of globals with no other use",
        "fn f() { _ = t; _ = s; }",
    ),
    (
        "phony-read",
        "phony assignments of a global that is also read, and of one that is only reached into",
        "fn f() { _ = given.x; _ = given; let p = &fixed.inner; }",
    ),
    (
        "phony-sampled",
        "a named image that is sampled too",
        "fn f() { _ = t; _ = textureSample(t, s, given.xy); }",
    ),
    (
        "named-pointer",
        "names for pointers: read, written and neither",
        "fn f() { let p = &own; let q = &own_numbers[1]; let n = &group_numbers; *p = *q; }",
    ),
    (
        "read-member",
        "a member of a member read",
        "fn f() -> f32 { return fixed.inner.y.z + fixed.inner.z[1]; }",
    ),
    (
        "read-dynamic",
        "elements by an index that is itself read",
        "fn f() -> f32 { return changing[u32(own)].inner.z[u32(fixed.x)]; }",
    ),
    (
        "store-each-space",
        "stores to private, workgroup and storage",
        "fn f(x: f32) { own = x; group_numbers[1] = x; changing[0].x = x; }",
    ),
    (
        "store-read-write",
        "globals that are read and written",
        "fn f() { own += fixed.x; changing[0].inner.z[1] = changing[1].x; }",
    ),
    (
        "store-local",
        "stores to a local and to a part of one",
        "fn f(x: f32) -> f32 { var v: vec4<f32>; v.y = x; v[u32(x)] = own; return v.z; }",
    ),
    (
        "store-through-pointer",
        "a callee that stores through its argument",
        "fn f(p: ptr<function, f32>, q: ptr<private, f32>) { *p = 1.0; *q = *p; }
         fn g() { var x: f32; f(&x, &own); }",
    ),
    (
        "array-length",
        "the length of an array that is nothing but queried",
        "fn f() -> u32 { return arrayLength(&changing); }",
    ),
    (
        "array-length-and-read",
        "the length of an array that is read at its end",
        "fn f() -> f32 { return changing[arrayLength(&changing) - 1u].x; }",
    ),
    (
        "uses-by-callee",
        "uses join through two calls",
        "fn f() { own = 1.0; }
         fn g() -> f32 { f(); return own + fixed.x; }
         fn h() -> u32 { _ = g(); return arrayLength(&changing); }",
    ),
    (
        "uses-by-entry",
        "uses of an entry point through its callee",
        "fn f(x: u32) { changing[x].x = given.x; }
         @compute @workgroup_size(1) fn main(@builtin(global_invocation_id) id: vec3<u32>) { f(id.x); }",
    ),
];

const VALUES: [Program; 12] = [
    (
        "initialisers",
        "locals with and without constant initialisers",
        "fn f() -> f32 { var a = 1.0; var b: f32; var c = vec4(1.0, 2.0, 3.0, 4.0); var d = own; return a + b + c.x + d; }",
    ),
    (
        "references",
        "one value used five times",
        "fn f(x: f32) -> f32 { let y = x * given.x; return y * y + max(y, y) - y; }",
    ),
    (
        "origin-order",
        "the first operand that isn't uniform is the origin",
        "fn f(x: f32, y: f32) -> vec4<f32> { return vec4(given.x, y, x, own); }",
    ),
    (
        "origin-select",
        "select with each operand in turn not uniform",
        "fn f(x: f32, y: bool) -> f32 { return select(x, given.x, true) + select(given.y, x, true) + select(1.0, 2.0, y); }",
    ),
    (
        "math",
        "functions of one, two, three and four operands",
        "fn f(x: f32) -> f32 { return abs(x) + pow(given.x, x) + mix(given.x, x, 0.5) + f32(extractBits(u32(x), 1u, 2u))
             + f32(insertBits(1u, 2u, u32(x), 3u)); }",
    ),
    (
        "operators",
        "unary, binary, conversions, bitcasts and comparisons",
        "fn f(x: i32) -> f32 { return f32(-x) + bitcast<f32>(~x) + f32((x << 2u) % 7) + select(0.0, 1.0, !(x == 3)); }",
    ),
    (
        "vectors",
        "splat, swizzle, compose, all and any",
        "fn f(x: f32) -> vec3<f32> { let v = vec4(x); let b = v > given; return select(v.zyx, vec3(x, given.xy), all(b) || any(b)); }",
    ),
    (
        "matrices",
        "columns, elements and products",
        "fn f(m: mat2x2<f32>, i: u32) -> f32 { var n = m; return n[i].x + n[0][i] + (m * given.xy).x + determinant(m); }",
    ),
    (
        "overrides",
        "an override and a constant",
        "const FOUR = 4.0;
         fn f() -> f32 { return tuned * FOUR; }",
    ),
    (
        "builtins-uniform",
        "work group number and count are uniform",
        "@compute @workgroup_size(2) fn main(@builtin(workgroup_id) g: vec3<u32>, @builtin(num_workgroups) n: vec3<u32>) {
             if g.x < n.y { own = f32(g.z); } else { return; } workgroupBarrier();
         }",
    ),
    (
        "builtins-not-uniform",
        "numbers of an invocation aren't",
        "@compute @workgroup_size(2) fn main(@builtin(local_invocation_index) i: u32, @builtin(global_invocation_id) id: vec3<u32>) {
             if i < id.y { own = 1.0; } else { return; } workgroupBarrier();
         }",
    ),
    (
        "entry-results",
        "vertex and fragment entry points with their interfaces",
        "@vertex fn first(@builtin(vertex_index) i: u32) -> @builtin(position) vec4<f32> { return vec4(f32(i)); }
         @fragment fn second(@builtin(position) p: vec4<f32>) -> @location(0) vec4<f32> { return p * given; }",
    ),
];
