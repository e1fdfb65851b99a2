#version 450
// Textures in an array of arrays, and an array of them that functions take.
layout(set = 0, binding = 0) uniform sampler2D pages[2][3];
layout(set = 0, binding = 1) uniform texture2D masks[4];
layout(set = 0, binding = 2) uniform sampler smooth_sampler;

layout(set = 1, binding = 0) uniform Choice {
    int book;
    int page;
    int mask;
};

layout(location = 0) in vec2 uv;
layout(location = 0) out vec4 color;

float masked(texture2D from[4], int index, vec2 at) {
    return texture(sampler2D(from[index], smooth_sampler), at).r;
}

float outlined(texture2D from[4], vec2 at) {
    return masked(from, mask, at) * masked(from, 2, at.yx);
}

void main() {
    vec4 first = texture(pages[1][2], uv);
    vec4 chosen = texture(pages[book][page], uv);
    color = mix(first, chosen, outlined(masks, uv));
}
