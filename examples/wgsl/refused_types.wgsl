// The condition is a number.

@compute @workgroup_size(1)
fn main(@builtin(local_invocation_index) index: u32) {
    var total = 0.0;
    if index {
        total += 1.0;
    }
}
