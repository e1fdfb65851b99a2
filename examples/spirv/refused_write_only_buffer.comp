#version 450
// Refused: a storage buffer that is only written.
layout(local_size_x = 1) in;
layout(std430, set = 0, binding = 0) writeonly buffer Target {
    uint words[];
};

void main() {
    words[gl_GlobalInvocationID.x] = 1u;
}
