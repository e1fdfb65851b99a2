// Shades with 16-bit floats. Declarations stand in any order.

enable f16;

@fragment
fn shade(in: Surface) -> @location(0) vec4<f32> {
    let normal = normalize(vec3<f16>(in.normal));
    let light = vec3h(0.0h, 0.6h, 0.8h);
    let lambert = max(dot(normal, light), AMBIENT);
    let color = mix(COLD, WARM, vec3h(lambert));
    return vec4<f32>(vec3<f32>(color * EXPOSURE), 1.0);
}

@vertex
fn project(@location(0) position: vec3f, @location(1) normal: vec3f) -> Surface {
    var out: Surface;
    out.position = camera.view_projection * vec4f(position, 1);
    out.normal = camera.normal_matrix * normal;
    return out;
}

const WARM = vec3h(1.0, 0.9, 0.7);
const COLD = vec3h(0.2, 0.25, 0.4);
const AMBIENT = 0.05h;
override EXPOSURE: f16 = 1.5;

struct Surface {
    @builtin(position) position: vec4f,
    @location(0) normal: vec3f,
}

struct Camera {
    view_projection: mat4x4f,
    normal_matrix: mat3x3f,
}

@group(0) @binding(0) var<uniform> camera: Camera;
