// A counter that is no atomic.

@group(0) @binding(0) var<storage, read_write> counter: u32;

@compute @workgroup_size(64)
fn count() {
    atomicAdd(&counter, 1u);
}
