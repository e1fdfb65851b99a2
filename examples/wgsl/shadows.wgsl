// Shadows of the sun from cascades of depth maps, softened over neighbouring texels.

const CASCADES = 4u;

struct Cascade {
    shadow_from_world: mat4x4<f32>,
    far: f32,
}

struct Sun {
    cascades: array<Cascade, CASCADES>,
    direction: vec3<f32>,
}

@group(0) @binding(0) var<uniform> sun: Sun;
@group(0) @binding(1) var shadow_maps: texture_depth_2d_array;
@group(0) @binding(2) var shadow_sampler: sampler_comparison;
@group(0) @binding(3) var depth_sampler: sampler;

fn cascade_of(depth: f32) -> u32 {
    for (var at = 0u; at < CASCADES; at++) {
        if depth < sun.cascades[at].far {
            return at;
        }
    }
    return CASCADES - 1;
}

// How much of the sun reaches a point of the map: 1 is all.
fn sunlight(place: vec3<f32>, layer: u32) -> f32 {
    let texel = 1.0 / vec2<f32>(textureDimensions(shadow_maps));
    let reference = place.z - 0.002;
    var sum = textureSampleCompareLevel(shadow_maps, shadow_sampler, place.xy, layer, reference);
    sum += textureSampleCompareLevel(shadow_maps, shadow_sampler, place.xy, layer, reference, vec2(1, 0));
    sum += textureSampleCompareLevel(shadow_maps, shadow_sampler, place.xy, layer, reference, vec2(0, 1));
    let corners = textureGatherCompare(shadow_maps, shadow_sampler, place.xy + texel, layer, reference);
    return (sum + dot(corners, vec4(1.0))) / 7.0;
}

// The mean depth of what stands between the point and the sun.
fn blocker(place: vec3<f32>, layer: u32) -> f32 {
    let near = textureGather(shadow_maps, depth_sampler, place.xy, layer);
    let coarse = textureSampleLevel(shadow_maps, depth_sampler, place.xy, layer, 2);
    return min(dot(near, vec4(0.25)), coarse);
}

@fragment
fn shade(
    @builtin(position) clip: vec4<f32>,
    @location(0) world: vec3<f32>,
    @location(1) normal: vec3<f32>,
) -> @location(0) vec4<f32> {
    let layer = cascade_of(clip.w);
    let projected = sun.cascades[layer].shadow_from_world * vec4(world, 1.0);
    let place = projected.xyz / projected.w * vec3(0.5, -0.5, 1.0) + vec3(0.5, 0.5, 0.0);
    var lit = sunlight(place, layer);
    if place.z - blocker(place, layer) > 0.1 {
        lit = sqrt(lit);
    }
    let facing = max(dot(normalize(normal), -sun.direction), 0.0);
    return vec4(vec3(facing * lit), 1.0);
}
