#version 450
// One depth map, read as depths with one sampler and compared with another.
layout(set = 0, binding = 0) uniform texture2D depths;
layout(set = 0, binding = 1) uniform sampler plain;
layout(set = 0, binding = 2) uniform samplerShadow comparing;

layout(location = 0) in vec3 seen;
layout(location = 0) out vec4 color;

float lit(texture2D map, samplerShadow by) {
    return texture(sampler2DShadow(map, by), seen);
}

void main() {
    float nearest = texture(sampler2D(depths, plain), seen.xy).x;
    float light = lit(depths, comparing);
    float far = seen.z - nearest;
    color = vec4(vec3(light / (1.0 + far * far)), 1.0);
}
