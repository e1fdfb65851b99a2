#version 450
// Refused: a vertex shader that gives no position.
layout(location = 0) in vec3 position;
layout(location = 0) out vec3 color;

void main() {
    color = position;
}
