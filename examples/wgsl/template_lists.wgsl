// Where `<` and `>` compare, shift, or enclose a template list.

alias Grid = array<array<vec2<u32>, 4>, 4>;

const SHIFT = 8u >> 1u;
const COUNT = (8u >> 1u) * 2u;
const IS_LESS = 1 < 2;

@group(0) @binding(0) var<storage, read_write> grid: Grid;
@group(0) @binding(1) var<storage, read> limits: array<vec2<u32>, COUNT>;

fn is_inside(a: u32, b: u32, low: u32, high: u32) -> bool {
    return low <= a && a < high && b >= low && high > b;
}

@compute @workgroup_size(4, 4)
fn main(@builtin(local_invocation_id) id: vec3<u32>) {
    let limit = limits[id.x << 1u >> 1u];
    var cell = grid[id.y & 3u][id.x & 3u];
    if is_inside(cell.x, cell.y, limit.x, limit.y) == IS_LESS {
        cell >>= vec2<u32>(SHIFT);
        cell = vec2<u32>(cell.x ^ (cell.y << 3u), cell.y) & vec2(0xffffu);
    }
    let kept: array<vec2<u32>,2>= array<vec2<u32>, 2>(cell, limit);
    grid[id.y & 3u][id.x & 3u] = kept[0];
}
