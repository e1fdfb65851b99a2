// The greatest value of a list, and its place, by a reduction in workgroup memory. All invocations of a workgroup read the
// number of chunks from one place.

struct Best {
    value: f32,
    place: u32,
}

@group(0) @binding(0) var<storage> values: array<f32>;
@group(0) @binding(1) var<storage, read_write> best_of_groups: array<Best>;

override chunk: u32 = 1024;

var<workgroup> scratch: array<Best, 128>;
var<workgroup> chunk_count: u32;
var<workgroup> finished: atomic<u32>;

fn better(a: Best, b: Best) -> Best {
    if a.value < b.value { return b; }
    return a;
}

@compute @workgroup_size(128)
fn reduce(
    @builtin(workgroup_id) group: vec3<u32>,
    @builtin(local_invocation_index) local: u32,
) {
    if local == 0 {
        chunk_count = (arrayLength(&values) + chunk - 1) / chunk;
    }
    let count = workgroupUniformLoad(&chunk_count);
    if count == 0 {
        return;
    }

    var best = Best(-3.4e38, 0xffffffff);
    for (var at = local; at < chunk; at += 128) {
        let place = group.x * chunk + at;
        if place >= arrayLength(&values) { break; }
        best = better(best, Best(values[place], place));
    }
    scratch[local] = best;
    atomicAdd(&finished, 1u);

    var stride = 64u;
    while stride > 0 {
        workgroupBarrier();
        if local < stride {
            scratch[local] = better(scratch[local], scratch[local + stride]);
        }
        stride >>= 1;
    }
    let all = workgroupUniformLoad(&finished);
    storageBarrier();
    if local == 0 && all == 128 {
        best_of_groups[group.x] = scratch[0];
    }
}
