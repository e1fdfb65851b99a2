#version 450
// The IR compares at the finest level or at one that it computes, and at no other.
layout(set = 0, binding = 0) uniform sampler2DShadow shadows;
layout(location = 0) in vec3 at;
layout(location = 0) out float light;

void main() {
    light = textureLod(shadows, at, 2.0);
}
