#version 450
// The derivative of what is sampled stands where not all invocations arrive together; compiled with -g, so that its line is known.
layout(set = 0, binding = 0) uniform sampler2D detail;
layout(location = 0) in vec2 uv;
layout(location = 1) in float distance_to_eye;
layout(location = 0) out vec4 color;

void main() {
    vec4 base = vec4(0.5);
    if (distance_to_eye < 10.0) {
        base *= texture(detail, uv);
    }
    color = base;
}
