#version 450
// Two combined image samplers beside a buffer: the samplers get the first bindings that are free in their groups.
layout(set = 0, binding = 0, std140) uniform Tint {
    vec4 tint;
};
layout(set = 0, binding = 1) uniform sampler2D albedo;
layout(set = 1, binding = 4) uniform samplerCube sky;
layout(location = 0) in vec2 uv;
layout(location = 1) in vec3 direction;
layout(location = 0) out vec4 color;
layout(location = 1) out vec4 bloom;

void main() {
    color = tint * texture(albedo, uv);
    bloom = texture(sky, direction);
}
