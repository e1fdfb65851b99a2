// A `let` keeps its value.

fn sum_of(values: array<u32, 4>) -> u32 {
    let sum = 0u;
    for (var at = 0; at < 4; at++) {
        sum += values[at];
    }
    return sum;
}
