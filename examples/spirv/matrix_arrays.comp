#version 450
// Arrays of matrices that are stored row by row, or with a stride of their own: loaded and stored whole, and taken out of a struct.
layout(local_size_x = 1) in;

struct Bones {
    mat4x3 rest[2];
    float weight;
};

layout(set = 0, binding = 0, std140, row_major) uniform Pose {
    mat4x3 bones[4];
    mat2 tilts[3];
};
layout(set = 0, binding = 1, std430, row_major) buffer Result {
    mat4x3 made[4];
    Bones bones_of[];
} result;
layout(set = 0, binding = 2, std140) buffer Tilted {
    mat2 tilted[3];
};

void main() {
    mat4x3 all[4] = bones;
    all[1] = all[0] * mat4(2.0);
    result.made = all;
    Bones first = result.bones_of[gl_GlobalInvocationID.x];
    result.made[2] = first.rest[1] * first.weight;
    mat2 turned[3] = tilts;
    turned[0] = turned[1] * turned[2];
    tilted = turned;
}
