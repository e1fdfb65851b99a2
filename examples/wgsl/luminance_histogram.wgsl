// Counts the pixels of an image by their luminance. Each workgroup counts its own pixels in workgroup memory, and then adds its
// counts to those of all.

const BIN_COUNT = 256u;
const GROUP_SIZE = 256u;

struct Parameters {
    min_log_luminance: f32,
    inverse_log_range: f32,
    pixel_count: u32,
}

@group(0) @binding(0) var<uniform> parameters: Parameters;
// four components of 8 bits in each word
@group(0) @binding(1) var<storage, read> pixels: array<u32>;
@group(0) @binding(2) var<storage, read_write> histogram: array<atomic<u32>, BIN_COUNT>;

var<workgroup> bins: array<atomic<u32>, BIN_COUNT>;

fn bin_of(color: vec3<f32>) -> u32 {
    let luminance = dot(color, vec3<f32>(0.2127, 0.7152, 0.0722));
    if luminance < 0.001 {
        return 0u;
    }
    let log_luminance =
        saturate((log2(luminance) - parameters.min_log_luminance) * parameters.inverse_log_range);
    return u32(log_luminance * 254.0 + 1.0);
}

@compute @workgroup_size(GROUP_SIZE)
fn count(
    @builtin(global_invocation_id) id: vec3<u32>,
    @builtin(local_invocation_index) local: u32,
) {
    atomicStore(&bins[local], 0);
    workgroupBarrier();

    if id.x < parameters.pixel_count {
        let color = unpack4x8unorm(pixels[id.x]);
        atomicAdd(&bins[bin_of(color.rgb)], 1);
    }
    workgroupBarrier();

    let counted = atomicLoad(&bins[local]);
    if counted > 0 {
        atomicAdd(&histogram[local], counted);
    }
}
