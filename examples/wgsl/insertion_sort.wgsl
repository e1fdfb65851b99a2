// Sorts a few numbers in each invocation's own array, by pointers to its elements.

struct Range {
    first: u32,
    count: u32,
}

@group(0) @binding(0) var<uniform> ranges: array<vec4<u32>, 16>;
@group(0) @binding(1) var<storage, read_write> values: array<i32>;

var<private> comparisons: u32;

fn swap(a: ptr<function, i32>, b: ptr<function, i32>) {
    let kept = *a;
    *a = *b;
    *b = kept;
}

fn is_before(a: i32, b: i32) -> bool {
    comparisons += 1u;
    return a < b;
}

fn range_of(index: u32) -> Range {
    let row = ranges[index / 2u];
    if index % 2u == 0u {
        return Range(row.x, min(row.y, 8u));
    }
    return Range(row.z, min(row.w, 8u));
}

@compute @workgroup_size(32)
fn main(@builtin(global_invocation_id) id: vec3<u32>) {
    let range = range_of(id.x % 32u);
    var own: array<i32, 8>;
    for (var at = 0u; at < range.count; at++) {
        own[at] = values[range.first + at];
    }
    for (var end = 1u; end < range.count; end++) {
        var at = end;
        loop {
            if at == 0u || !is_before(own[at], own[at - 1u]) { break; }
            var lower = own[at - 1u];
            var upper = own[at];
            swap(&lower, &upper);
            own[at - 1u] = lower;
            own[at] = upper;
            continuing {
                at--;
            }
        }
    }
    for (var at = 0u; at < range.count; at++) {
        values[range.first + at] = own[at];
    }
}
