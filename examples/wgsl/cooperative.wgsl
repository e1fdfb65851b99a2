// A product of matrices in tiles of 16 rows and columns, each by one subgroup, added to what the result held before.

enable f16;
enable wgpu_cooperative_matrix;

struct Sizes {
    rows: u32,
    columns: u32,
    inner: u32,
}

alias Left = coop_mat16x16<f16, A>;
alias Right = coop_mat16x16<f16, B>;
alias Total = coop_mat16x16<f32, C>;

const SIDE = 16;

@group(0) @binding(0) var<uniform> sizes: Sizes;
@group(0) @binding(1) var<storage> left: array<f16>;
@group(0) @binding(2) var<storage> right: array<f16>;
@group(0) @binding(3) var<storage, read_write> result: array<f32>;

@compute @workgroup_size(32)
fn multiply(@builtin(workgroup_id) group: vec3<u32>) {
    let row = group.y * SIDE;
    let column = group.x * SIDE;
    let corner = &result[row * sizes.columns + column];
    var total = coopLoadT<Total>(corner, sizes.columns);
    for (var k = 0u; k < sizes.inner; k += SIDE) {
        // rows of the left matrix, and columns of the right one
        let a = coopLoadT<Left>(&left[row * sizes.inner + k], sizes.inner);
        let b = coopLoad<Right>(&right[column * sizes.inner + k], sizes.inner);
        total = coopMultiplyAdd(a, b, total);
    }
    coopStoreT(total, corner, sizes.columns);
}
