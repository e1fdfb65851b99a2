#version 450
// Sums in doubles that are kept as two words each.
layout(local_size_x = 32) in;
layout(std430, set = 0, binding = 0) buffer Sums {
    uvec2 sums[];
};
layout(std430, set = 0, binding = 1) readonly buffer Items {
    float items[];
};

void main() {
    uint at = gl_GlobalInvocationID.x;
    double sum = packDouble2x32(sums[at]);
    sum += double(items[at]);
    sums[at] = unpackDouble2x32(sum);
}
