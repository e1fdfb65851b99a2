// One draw for many materials: each primitive picks its image and its sampler by number.

enable wgpu_binding_array;

struct Material {
    tint: vec4<f32>,
    image: u32,
    filter_number: u32,
}

@group(0) @binding(0) var<storage, read> materials: array<Material>;
@group(0) @binding(1) var images: binding_array<texture_2d<f32>, 64>;
@group(0) @binding(2) var samplers: binding_array<sampler, 4>;

@fragment
fn shade(
    @location(0) uv: vec2<f32>,
    @location(1) @interpolate(flat) number: u32,
) -> @location(0) vec4<f32> {
    let material = materials[number];
    let along_x = dpdx(uv);
    let along_y = dpdy(uv);
    let image = images[material.image];
    let colour = textureSampleGrad(image, samplers[material.filter_number], uv, along_x, along_y);
    return colour * material.tint;
}
