#version 450
// Refused: a matrix goes between stages, where only numbers and vectors may.
layout(location = 0) in mat3 frame;
layout(location = 0) out vec4 color;

void main() {
    color = vec4(frame * vec3(1.0), 1.0);
}
