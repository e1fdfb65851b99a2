#version 450
// Sums a buffer by a tree in workgroup memory.
layout(local_size_x = 128) in;
layout(std430, set = 0, binding = 0) readonly buffer Input {
    uint count;
    vec4 items[];
};
layout(std430, set = 0, binding = 1) buffer Output {
    vec4 sums[];
};
shared vec4 partial[128];

void main() {
    uint local = gl_LocalInvocationIndex;
    uint at = gl_GlobalInvocationID.x;
    partial[local] = at < count ? items[at] : vec4(0.0);
    barrier();
    for (uint stride = 64u; stride > 0u; stride >>= 1u) {
        if (local < stride) {
            partial[local] += partial[local + stride];
        }
        barrier();
    }
    if (local == 0u) {
        sums[gl_WorkGroupID.x] = partial[0];
    }
}
