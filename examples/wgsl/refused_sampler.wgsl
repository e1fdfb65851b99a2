// A comparison needs a sampler that compares.

@group(0) @binding(0) var shadow_map: texture_depth_2d;
@group(0) @binding(1) var plain_sampler: sampler;

@fragment
fn shade(@location(0) place: vec3<f32>) -> @location(0) vec4<f32> {
    let lit = textureSampleCompare(shadow_map, plain_sampler, place.xy, place.z);
    return vec4(vec3(lit), 1.0);
}
