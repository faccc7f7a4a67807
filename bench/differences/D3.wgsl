enable wgpu_binding_array;
struct S { x: f32 }
@group(0) @binding(0) var<storage> a: binding_array<S>;
fn f(i: i32) { let p = &a[i]; }
