#version 450
#extension GL_EXT_scalar_block_layout : require
// Matrices without room between their columns or rows, as scalar layout has them.
layout(local_size_x = 64) in;

struct Bone {
    mat3 turn;
    mat2x3 shear;
};

layout(scalar, set = 0, binding = 0) readonly buffer Bones {
    Bone bones[];
};

layout(scalar, row_major, set = 0, binding = 1) buffer Turned {
    mat3 whole;
    mat3x2 flat_part;
    float first;
    vec2 last;
};

void main() {
    uint at = gl_GlobalInvocationID.x;
    mat3 turn = bones[at].turn;
    vec3 side = bones[at].shear[1];
    whole[at % 3u] = turn * side;
    flat_part = mat3x2(turn);
    whole = whole * turn;
    first = turn[0][0];
    last = flat_part[1] + vec2(turn[2][0], bones[at].turn[at % 3u][1]);
}
