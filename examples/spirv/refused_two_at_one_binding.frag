#version 450
// Refused: two buffers at one binding, both used.
layout(set = 0, binding = 0) uniform First {
    vec4 first;
};
layout(set = 0, binding = 0) uniform Second {
    vec4 second;
};
layout(location = 0) out vec4 color;

void main() {
    color = first + second;
}
