#version 450
#extension GL_KHR_shader_subgroup_basic : require
#extension GL_KHR_shader_subgroup_arithmetic : require
#extension GL_KHR_shader_subgroup_ballot : require
#extension GL_KHR_shader_subgroup_shuffle : require
#extension GL_KHR_shader_subgroup_vote : require
// Keeps the items that are not zero, each subgroup for itself.
layout(local_size_x = 64) in;
layout(std430, set = 0, binding = 0) readonly buffer Items {
    uint items[];
};
layout(std430, set = 0, binding = 1) buffer Kept {
    uint kept[];
};

void main() {
    uint at = gl_GlobalInvocationID.x;
    uint item = items[at];
    uint is_kept = item != 0u ? 1u : 0u;
    uint place = subgroupExclusiveAdd(is_kept);
    uint count = subgroupAdd(is_kept);
    uvec4 ballot = subgroupBallot(item != 0u);
    uint first = subgroupBroadcastFirst(at);
    uint next = subgroupShuffleXor(item, 1u);
    bool is_any = subgroupAny(item > next);
    uint greatest = subgroupMax(item);
    if (is_kept == 1u) {
        kept[first + place] = is_any ? item : greatest + ballot.x + count;
    }
}
