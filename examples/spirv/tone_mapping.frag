#version 450
// Maps the light of an attachment to what a screen shows, and mixes in another one of it, at the place of the fragment.
layout(input_attachment_index = 0, set = 0, binding = 0) uniform subpassInput light;
layout(input_attachment_index = 1, set = 0, binding = 1) uniform usubpassInput kinds;
layout(push_constant) uniform Exposure {
    float exposure;
};

layout(location = 0) out vec4 color;

vec3 mapped(subpassInput from) {
    vec3 seen = subpassLoad(from).rgb * exposure;
    return seen / (seen + 1.0);
}

void main() {
    uint kind = subpassLoad(kinds).x;
    vec3 base = mapped(light);
    float edge = fract(gl_FragCoord.x * 0.125);
    color = vec4(kind == 1u ? base.bgr : base, kind > 2u ? edge : 1.0);
}
