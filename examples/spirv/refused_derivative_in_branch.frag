#version 450
// Refused: a texture is sampled by its derivatives inside a branch that neighbours may take or not.
layout(set = 0, binding = 0) uniform sampler2D image;
layout(location = 0) in vec2 uv;
layout(location = 0) out vec4 color;

void main() {
    color = vec4(0.0);
    if (uv.x > 0.5) {
        color = texture(image, uv);
    }
}
