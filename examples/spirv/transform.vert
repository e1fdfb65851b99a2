#version 450
// A mesh with its camera, its normals and a tint for each instance.
layout(set = 0, binding = 0) uniform Camera {
    mat4 view;
    mat4 projection;
    mat3 normals;
    vec4 lights[4];
    float near;
    float far;
} camera;

layout(location = 0) in vec3 position;
layout(location = 1) in vec3 normal;
layout(location = 2) in vec2 uv;
layout(location = 3) in uvec4 flags;

layout(location = 0) out vec3 out_normal;
layout(location = 1) out vec2 out_uv;
layout(location = 2) flat out uint out_flags;
layout(location = 3) out vec4 out_light;

void main() {
    vec4 seen = camera.view * vec4(position, 1.0);
    out_normal = normalize(camera.normals * normal);
    out_uv = uv;
    out_flags = flags.x | (flags.y << 8);
    out_light = camera.lights[gl_InstanceIndex & 3] * clamp((camera.far - seen.z) / (camera.far - camera.near), 0.0, 1.0);
    gl_Position = camera.projection * seen;
}
