#version 450
// A shadow out of a cascade of depth maps, softened by four comparisons.
layout(set = 0, binding = 0) uniform sampler2DArrayShadow cascades;
layout(set = 0, binding = 1) uniform Shadows {
    mat4 light[3];
    vec4 splits;
    float bias;
};

layout(location = 0) in vec3 world;
layout(location = 1) in float depth;
layout(location = 0) out vec4 color;

void main() {
    int cascade = 0;
    for (int at = 0; at < 2; ++at) {
        if (depth > splits[at]) {
            cascade = at + 1;
        }
    }
    vec4 seen = light[cascade] * vec4(world, 1.0);
    vec3 at = seen.xyz / seen.w;
    vec2 texel = 1.0 / vec2(textureSize(cascades, 0).xy);
    float sum = 0.0;
    for (int y = 0; y < 2; ++y) {
        for (int x = 0; x < 2; ++x) {
            vec2 uv = at.xy + (vec2(x, y) - 0.5) * texel;
            sum += textureGrad(cascades, vec4(uv, float(cascade), at.z - bias), vec2(0.0), vec2(0.0));
        }
    }
    color = vec4(vec3(sum * 0.25), 1.0);
}
