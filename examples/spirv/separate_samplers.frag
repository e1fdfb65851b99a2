#version 450
// Textures and samplers apart: one image by two samplers, fetched, gathered and asked for its size.
layout(set = 0, binding = 0) uniform texture2D base;
layout(set = 0, binding = 1) uniform sampler linear;
layout(set = 0, binding = 2) uniform sampler nearest;
layout(set = 0, binding = 3) uniform utexture2D labels;
layout(set = 1, binding = 0) uniform textureCube sky;

layout(location = 0) in vec2 uv;
layout(location = 1) in vec3 view;
layout(location = 0) out vec4 color;
layout(location = 1) out uint label;

void main() {
    vec4 smooth_one = texture(sampler2D(base, linear), uv);
    vec4 sharp_one = textureLod(sampler2D(base, nearest), uv, 2.0);
    vec4 four = textureGather(sampler2D(base, linear), uv, 1);
    ivec2 size = textureSize(sampler2D(base, linear), 0);
    uvec4 texel = texelFetch(usampler2D(labels, nearest), ivec2(uv * vec2(size)), 0);
    vec4 far = textureLod(samplerCube(sky, linear), view, 0.0);
    vec2 slope = vec2(dFdx(uv.x), dFdy(uv.y));
    color = mix(smooth_one, sharp_one, 0.5) + four * 0.25 + far * length(slope);
    label = texel.r;
}
