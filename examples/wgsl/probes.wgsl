// Reflections of the nearest probe: rough surfaces take a smaller level of its cube.

struct Probe {
    centre: vec3<f32>,
    radius: f32,
}

@group(0) @binding(0) var<storage, read> probes: array<Probe>;
@group(0) @binding(1) var cubes: texture_cube_array<f32>;
@group(0) @binding(2) var sky: texture_cube<f32>;
@group(0) @binding(3) var cube_sampler: sampler;

fn nearest(world: vec3<f32>) -> i32 {
    var best = -1;
    var least = 1e30;
    let count = min(arrayLength(&probes), textureNumLayers(cubes));
    for (var at = 0u; at < count; at++) {
        let away = distance(world, probes[at].centre);
        if away < probes[at].radius && away < least {
            least = away;
            best = i32(at);
        }
    }
    return best;
}

@fragment
fn shade(
    @location(0) world: vec3<f32>,
    @location(1) normal: vec3<f32>,
    @location(2) view: vec3<f32>,
    @location(3) @interpolate(flat, either) roughness: f32,
) -> @location(0) vec4<f32> {
    let way = reflect(normalize(view), normalize(normal));
    let ahead = textureSampleGrad(sky, cube_sampler, way, dpdx(way), dpdy(way));
    let at = nearest(world);
    if at < 0 {
        return ahead;
    }
    let last = f32(textureNumLevels(cubes) - 1);
    let mirrored = textureSampleLevel(cubes, cube_sampler, way, at, roughness * last);
    return mix(mirrored, ahead, roughness);
}
