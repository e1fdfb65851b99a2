// A row of colors, blurred: the weights stand in a table of constants, and an override says how many colors a workgroup shares.

const RADIUS = 4;
const WEIGHTS = array(0.227027, 0.1945946, 0.1216216, 0.054054, 0.016216);
const TOTAL = WEIGHTS[0] + 2 * (WEIGHTS[1] + WEIGHTS[2] + WEIGHTS[3] + WEIGHTS[4]);
const TINT = vec3(1, 0.95, 0.9) * 1.25;
const LUMA = vec3f(0.2126, 0.7152, 0.0722);
const DARKEST = max(0.5 / 255, 1e-4);
const TURN = mat2x2(0, -1, 1, 0) * 0.5;
const_assert TOTAL > 0.99 && TOTAL < 1.01;
const_assert RADIUS << 1 == 8 && ~0i == -1;

struct Look {
    radius: i32,
    weights: array<f32, RADIUS + 1>,
    tint: vec3f,
}

const LOOK = Look(RADIUS, WEIGHTS, TINT);
const LOOKS = array(LOOK, Look(0, array<f32, 5>(), vec3f(1)));

override width: u32 = 64;
override scale: f32 = 1.0 / 3.0 + DARKEST;
override bright = scale * 2 > 0.5;

@group(0) @binding(0) var<storage> colors: array<vec4f>;
@group(0) @binding(1) var<storage, read_write> blurred: array<vec4f>;

var<workgroup> shared_colors: array<vec3f, width + 2 * RADIUS>;
var<private> last: vec2f = vec2(1, 2) / 4;

fn weight(offset: i32) -> f32 {
    return WEIGHTS[abs(offset)] / TOTAL;
}

fn luma(color: vec3f) -> f32 {
    return max(dot(color, LUMA), DARKEST);
}

@compute @workgroup_size(64)
fn blur(@builtin(global_invocation_id) id: vec3u, @builtin(local_invocation_index) local: u32) {
    let at = min(id.x, arrayLength(&colors) - 1);
    if local < width {
        shared_colors[local + RADIUS] = colors[at].rgb;
    }
    workgroupBarrier();
    const first = vec2(LOOK.radius, -LOOK.radius);
    var sum = vec3f();
    for (var offset = first.y; offset <= first.x; offset++) {
        let place = u32(i32(local) + offset + RADIUS);
        sum += shared_colors[place] * weight(offset) * LOOKS[local % 2].weights[0];
    }
    last = TURN * last + sum.xy;
    let chosen = select(LOOK.tint, LOOKS[1].tint, vec3(true, false, bright));
    blurred[at] = vec4(sum * chosen * scale, luma(sum) + last.x);
}
