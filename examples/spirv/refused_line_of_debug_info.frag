#version 450
// A matrix between stages; compiled with -gVS, so that the module says a line of the variable: that of its first use.
layout(location = 0) in mat3 frame;
layout(location = 0) out vec4 color;

void main() {
    color = vec4(frame * vec3(1.0), 1.0);
}
