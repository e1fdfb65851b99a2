#version 450
// Remainders of integers that a float does not hold: GLSL's % has the sign of the divisor (OpSMod).
layout(local_size_x = 64) in;
layout(std430, set = 0, binding = 0) buffer Hashes {
    ivec4 hashes[];
};
layout(std430, set = 0, binding = 1) buffer Slots {
    int slots[];
};
layout(push_constant) uniform Table {
    int size;
} table;

void main() {
    uint at = gl_GlobalInvocationID.x;
    ivec4 hash = hashes[at] * 1103515245 + 12345;
    hashes[at] = hash % ivec4(16777217, 65537, 8191, -60);
    slots[at] = hash.x % table.size;
}
