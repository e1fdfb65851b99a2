#version 450
#extension GL_KHR_shader_subgroup_basic : require
#extension GL_KHR_shader_subgroup_ballot : require
#extension GL_KHR_shader_subgroup_clustered : require
// Gives each particle that is alive, and is the heaviest of four neighbours, a place among all that are alive.
layout(local_size_x = 64) in;
layout(std430, set = 0, binding = 0) readonly buffer Masses {
    float masses[];
};
layout(std430, set = 0, binding = 1) buffer Alive {
    uint next;
    uint places[];
};

void main() {
    uint at = gl_GlobalInvocationID.x;
    float mass = masses[at];
    uvec4 alive = subgroupBallot(mass > 0.0);
    uint count = subgroupBallotBitCount(alive);
    uint before = subgroupBallotExclusiveBitCount(alive);
    uint first = subgroupBallotFindLSB(alive);
    uint last = subgroupBallotFindMSB(alive);
    uint base = gl_SubgroupID * gl_SubgroupSize;
    if (gl_SubgroupInvocationID == first) {
        atomicAdd(next, count);
    }
    bool is_last = subgroupBallotBitExtract(alive, last) && gl_SubgroupInvocationID == last;
    float heaviest = subgroupClusteredMax(mass, 4u);
    bool is_alone = (alive & ~gl_SubgroupEqMask) == uvec4(0u);
    bool has_later = any(notEqual(alive & gl_SubgroupGtMask, uvec4(0u)));
    if (subgroupInverseBallot(alive) && mass == heaviest) {
        places[base + before] = is_alone || is_last || !has_later ? at : ~at;
    }
}
