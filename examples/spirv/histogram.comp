#version 450
// Counts values in workgroup memory first, then in a buffer, both by atomics.
layout(local_size_x = 64) in;
layout(std430, set = 0, binding = 0) readonly buffer Values {
    uint values[];
};
layout(std430, set = 0, binding = 1) buffer Counts {
    uint total;
    uint bins[256];
    int least;
    int greatest;
};
shared uint counted[256];

void main() {
    for (uint bin = gl_LocalInvocationIndex; bin < 256u; bin += 64u) {
        counted[bin] = 0u;
    }
    barrier();
    uint at = gl_GlobalInvocationID.x;
    if (at < uint(values.length())) {
        uint value = values[at];
        atomicAdd(counted[value & 255u], 1u);
        atomicMin(least, int(value));
        atomicMax(greatest, int(value));
    }
    barrier();
    for (uint bin = gl_LocalInvocationIndex; bin < 256u; bin += 64u) {
        uint count = counted[bin];
        if (count != 0u) {
            uint before = atomicAdd(bins[bin], count);
            if (before == 0u) {
                atomicAdd(total, 1u);
            }
        }
    }
}
