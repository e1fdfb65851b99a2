#version 450
// Discards by a pattern, writes its own depth, and knows its side.
layout(location = 0) in vec4 tint;
layout(location = 1) in float height;
layout(location = 0) out vec4 color;

float band(float x) {
    return fract(x * 4.0);
}

vec4 shade(vec4 base, bool is_front) {
    if (!is_front) {
        return base.bgra;
    }
    return base;
}

void main() {
    ivec2 at = ivec2(gl_FragCoord.xy);
    if (((at.x ^ at.y) & 1) == 0 && tint.a < 0.5) {
        discard;
    }
    color = shade(tint, gl_FrontFacing) * (0.5 + 0.5 * band(height));
    gl_FragDepth = clamp(gl_FragCoord.z + 0.001 * height, 0.0, 1.0);
}
