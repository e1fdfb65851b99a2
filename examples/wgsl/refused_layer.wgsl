// An array of images is sampled without a layer.

@group(0) @binding(0) var pages: texture_2d_array<f32>;
@group(0) @binding(1) var page_sampler: sampler;

@fragment
fn shade(@location(0) uv: vec2<f32>) -> @location(0) vec4<f32> {
    return textureSample(pages, page_sampler, uv);
}
