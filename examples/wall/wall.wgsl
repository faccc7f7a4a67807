// A wall's tile: the picture reaches its sampler through two calls.
@group(0) @binding(0) var picture: texture_2d<f32>;
@group(0) @binding(1) var legend: texture_2d<f32>;
@group(0) @binding(2) var smooth_sampler: sampler;

fn sampled(image: texture_2d<f32>, filtering: sampler, at: vec2<f32>) -> vec4<f32> {
    return textureSample(image, filtering, at);
}

fn tile(image: texture_2d<f32>, at: vec2<f32>) -> vec4<f32> {
    return sampled(image, smooth_sampler, at * 0.5);
}

@fragment
fn show(@location(0) at: vec2<f32>) -> @location(0) vec4<f32> {
    return tile(picture, at);
}
