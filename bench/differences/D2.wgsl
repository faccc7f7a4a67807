enable wgpu_binding_array;
@group(0) @binding(0) var s: sampler;
fn f(a: texture_1d<f32>, b: texture_1d<f32>) { let c = 0f; _ = textureSample(a, s, c); _ = textureSample(b, s, c); }
fn g(x: binding_array<texture_1d<f32>, 1>) { f(x[0], x[0]); }
