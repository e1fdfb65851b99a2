// Surfaces in 16 bytes: a color with a shared exponent, a normal, two coordinates of a texture and flags; packed by a compute
// shader, and unpacked by another.

struct Surface {
    color: vec3<f32>,
    roughness: f32,
    normal: vec3<f32>,
    flags: u32,
    uv: vec2<f32>,
}

@group(0) @binding(0) var<storage> surfaces: array<Surface>;
@group(0) @binding(1) var<storage, read_write> packed: array<vec4<u32>>;
@group(0) @binding(2) var<storage, read_write> tiles: array<vec2<i32>>;

const EXPONENT_BIAS = 15;
const MANTISSA_BITS = 9;

fn pack_color(color: vec3<f32>) -> u32 {
    let positive = clamp(color, vec3(0.0), vec3(65408.0));
    let greatest = max(max(positive.r, positive.g), positive.b);
    let exponent = max(frexp(greatest).exp, -EXPONENT_BIAS);
    let scaled = vec3<u32>(ldexp(positive, vec3(MANTISSA_BITS - exponent)));
    var bits = scaled.r;
    bits = insertBits(bits, scaled.g, 9, 9);
    bits = insertBits(bits, scaled.b, 18, 9);
    return insertBits(bits, u32(exponent + EXPONENT_BIAS), 27, 5);
}

fn unpack_color(bits: u32) -> vec3<f32> {
    let exponent = i32(extractBits(bits, 27, 5)) - EXPONENT_BIAS - MANTISSA_BITS;
    let mantissas = vec3<u32>(
        extractBits(bits, 0u, 9u),
        extractBits(bits, 9u, 9u),
        extractBits(bits, 18u, 9u),
    );
    return ldexp(vec3<f32>(mantissas), vec3<i32>(exponent));
}

fn encode_normal(normal: vec3<f32>) -> vec2<f32> {
    let flat = normal.xy / dot(abs(normal), vec3(1.0));
    let folded = (1.0 - abs(flat.yx)) * select(vec2(-1.0), vec2(1.0), flat >= vec2(0.0));
    return select(folded, flat, normal.z >= 0.0);
}

@compute @workgroup_size(64)
fn pack(@builtin(global_invocation_id) id: vec3<u32>) {
    if id.x >= arrayLength(&surfaces) { return; }
    let surface = surfaces[id.x];
    let tile = modf(surface.uv * 16.0);
    tiles[id.x] = vec2<i32>(tile.whole);
    packed[id.x] = vec4<u32>(
        pack_color(surface.color),
        pack2x16snorm(encode_normal(surface.normal)),
        pack2x16float(tile.fract),
        pack4xU8(vec4<u32>(surface.flags, u32(surface.roughness * 255), 0, 0)),
    );
}

@compute @workgroup_size(64)
fn check(@builtin(global_invocation_id) id: vec3<u32>) {
    if id.x >= arrayLength(&packed) { return; }
    let bits = packed[id.x];
    var color = unpack_color(bits.x);
    color *= quantizeToF16(unpack2x16float(bits.z).x);
    let signs = dot4I8Packed(bits.w, 0x01010101);
    let flags = unpack4xU8(bits.w).x;
    packed[id.x].x = pack_color(color) + flags + u32(signs);
}
