// A list to which each invocation appends an item. A lock guards the sum of the items, a counter gives each invocation its own
// place, and what goes wrong is noted in a word of flags.

struct Queue {
    lock: atomic<u32>,
    length: atomic<u32>,
    lowest: atomic<i32>,
    sum: u32,
    items: array<vec2<u32>>,
}

@group(0) @binding(0) var<storage, read_write> queue: Queue;
@group(0) @binding(1) var<storage, read_write> failures: atomic<u32>;

const FREE = 0u;
const TAKEN = 1u;

fn acquire() -> bool {
    for (var attempt = 0; attempt < 64; attempt++) {
        let result = atomicCompareExchangeWeak(&queue.lock, FREE, TAKEN);
        if result.exchanged {
            return true;
        }
        if result.old_value == TAKEN {
            continue;
        }
    }
    return false;
}

@compute @workgroup_size(64)
fn append(@builtin(global_invocation_id) id: vec3<u32>) {
    let place = atomicAdd(&queue.length, 1u);
    if place < arrayLength(&queue.items) {
        queue.items[place] = id.xy;
    } else {
        atomicSub(&queue.length, 1u);
        atomicOr(&failures, 1u << (id.x & 15u));
    }
    atomicMin(&queue.lowest, i32(id.x) - 32);

    if acquire() {
        queue.sum += id.x;
        let before = atomicExchange(&queue.lock, FREE);
        if before != TAKEN {
            atomicXor(&failures, 0x80000000);
        }
    }
}
