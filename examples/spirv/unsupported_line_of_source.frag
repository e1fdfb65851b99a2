#version 450
// What the level of a texel would be; compiled with -g, so that its line is known.
layout(set = 0, binding = 0) uniform sampler2D albedo;
layout(location = 0) in vec2 uv;
layout(location = 0) out vec4 color;

void main() {
    vec2 level = textureQueryLod(albedo, uv);
    color = vec4(level, 0.0, 1.0);
}
