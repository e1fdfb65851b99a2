// A triangle that turns, with a colour for each corner.

struct Camera {
    view: mat4x4<f32>,
    angle: f32,
}

struct Corner {
    @builtin(position) position: vec4<f32>,
    @location(0) colour: vec3<f32>,
    @location(1) @interpolate(flat) number: u32,
}

@group(0) @binding(0) var<uniform> camera: Camera;

fn turned(point: vec2<f32>, angle: f32) -> vec2<f32> {
    let turn = mat2x2<f32>(cos(angle), sin(angle), -sin(angle), cos(angle));
    return turn * point;
}

@vertex
fn corner(@builtin(vertex_index) number: u32) -> Corner {
    var points = array<vec2<f32>, 3>(vec2(0.0, 0.5), vec2(-0.5, -0.5), vec2(0.5, -0.5));
    var made: Corner;
    let point = turned(points[number % 3], camera.angle);
    made.position = camera.view * vec4(point, 0.0, 1.0);
    made.colour = vec3<f32>(select(vec3(0u), vec3(1u), vec3(number) == vec3(0u, 1u, 2u)));
    made.number = number;
    return made;
}

@fragment
fn shade(corner: Corner) -> @location(0) vec4<f32> {
    if corner.number > 2 {
        discard;
    }
    return vec4(corner.colour.bgr, 1.0);
}
