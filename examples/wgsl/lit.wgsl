// A surface with a colour map and a normal map under one lamp.

struct Camera {
    clip_from_world: mat4x4<f32>,
    eye: vec3<f32>,
}

struct Lamp {
    position: vec3<f32>,
    colour: vec3<f32>,
    reach: f32,
}

struct Surface {
    @builtin(position) clip: vec4<f32>,
    @location(0) world: vec3<f32>,
    @location(1) normal: vec3<f32>,
    @location(2) tangent: vec4<f32>,
    @location(3) uv: vec2<f32>,
}

@group(0) @binding(0) var<uniform> camera: Camera;
@group(0) @binding(1) var<uniform> lamp: Lamp;
@group(1) @binding(0) var colours: texture_2d<f32>;
@group(1) @binding(1) var normals: texture_2d<f32>;
@group(1) @binding(2) var smooth_sampler: sampler;

@vertex
fn place(
    @location(0) position: vec3<f32>,
    @location(1) normal: vec3<f32>,
    @location(2) tangent: vec4<f32>,
    @location(3) uv: vec2<f32>,
) -> Surface {
    var out: Surface;
    out.clip = camera.clip_from_world * vec4(position, 1.0);
    out.world = position;
    out.normal = normal;
    out.tangent = tangent;
    out.uv = uv;
    return out;
}

fn bumped(surface: Surface, map: texture_2d<f32>, map_sampler: sampler) -> vec3<f32> {
    let normal = normalize(surface.normal);
    let tangent = normalize(surface.tangent.xyz);
    let bitangent = cross(normal, tangent) * surface.tangent.w;
    let bump = textureSampleBias(map, map_sampler, surface.uv, -0.5).xyz * 2.0 - 1.0;
    return normalize(mat3x3<f32>(tangent, bitangent, normal) * bump);
}

@fragment
fn shade(surface: Surface) -> @location(0) vec4<f32> {
    let base = textureSample(colours, smooth_sampler, surface.uv);
    let normal = bumped(surface, normals, smooth_sampler);
    let way = lamp.position - surface.world;
    let to_lamp = normalize(way);
    let halfway = normalize(to_lamp + normalize(camera.eye - surface.world));
    let fade = saturate(1.0 - length(way) / lamp.reach);
    let diffuse = max(dot(normal, to_lamp), 0.0);
    let specular = pow(max(dot(normal, halfway), 0.0), 32.0);
    let light = lamp.colour * fade * (diffuse + specular);
    if base.a < 0.5 {
        discard;
    }
    return vec4(base.rgb * (light + vec3(0.05)), base.a);
}
