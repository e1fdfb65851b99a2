#version 450
// Constants that a pipeline sets: a switch, a count of rounds, an exponent.
layout(constant_id = 0) const bool is_inverted = false;
layout(constant_id = 1) const int rounds = 4;
layout(constant_id = 2) const float exponent = 2.0;
const int doubled = rounds * 2;

layout(set = 0, binding = 0) uniform Gradient {
    vec4 stops[8];
};

layout(location = 0) in vec2 uv;
layout(location = 0) out vec4 color;

void main() {
    vec4 sum = vec4(0.0);
    for (int at = 0; at < rounds; ++at) {
        sum += stops[at & 7] / float(doubled);
    }
    vec4 raised = pow(max(sum, vec4(0.0)), vec4(exponent));
    color = is_inverted ? vec4(1.0) - raised : raised * uv.xyxy;
}
