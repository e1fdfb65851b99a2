// Sharpens an image; each pixel is also counted by how bright it is.

@group(0) @binding(0) var source: texture_2d<f32>;
@group(0) @binding(1) var target_image: texture_storage_2d<rgba8unorm, write>;
@group(0) @binding(2) var<storage, read_write> counts: array<atomic<u32>, 256>;
@group(0) @binding(3) var marks: texture_storage_2d<r32uint, read_write>;

override strength: f32 = 0.5;

fn texel(place: vec2<i32>) -> vec4<f32> {
    let last = vec2<i32>(textureDimensions(source, 0)) - 1;
    return textureLoad(source, clamp(place, vec2(0), last), 0);
}

@compute @workgroup_size(8, 8)
fn sharpen(@builtin(global_invocation_id) id: vec3<u32>) {
    let size = textureDimensions(target_image);
    if any(id.xy >= size) {
        return;
    }
    let place = vec2<i32>(id.xy);
    let middle = texel(place);
    var around = vec4<f32>();
    for (var y = -1; y <= 1; y++) {
        for (var x = -1; x <= 1; x++) {
            around += texel(place + vec2(x, y));
        }
    }
    let sharp = mix(around / 9.0, middle, 1.0 + strength);
    textureStore(target_image, place, clamp(sharp, vec4<f32>(), vec4(1.0)));
    let brightness = dot(sharp.rgb, vec3(0.2126, 0.7152, 0.0722));
    atomicAdd(&counts[u32(saturate(brightness) * 255.0)], 1u);
    let marked = textureLoad(marks, id.xy).r;
    textureStore(marks, id.xy, vec4(marked | 1u, 0u, 0u, 1u));
}
