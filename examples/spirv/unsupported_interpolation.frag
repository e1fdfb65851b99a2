#version 450
// A function of GLSL.std.450 that the IR does not have, by its name.
layout(location = 0) in vec4 tint;
layout(location = 0) out vec4 color;

void main() {
    color = interpolateAtCentroid(tint);
}
