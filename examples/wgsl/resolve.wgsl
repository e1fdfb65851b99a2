// Resolves a multisampled image with weights by brightness, and keeps the nearest depth.

struct Resolved {
    @location(0) colour: vec4<f32>,
    @builtin(frag_depth) depth: f32,
}

@group(0) @binding(0) var colours: texture_multisampled_2d<f32>;
@group(0) @binding(1) var depths: texture_depth_multisampled_2d;
@group(0) @binding(2) var stencils: texture_multisampled_2d<u32>;

@vertex
fn cover(@builtin(vertex_index) index: u32) -> @builtin(position) vec4<f32> {
    let corner = vec2<f32>(vec2(index & 1u, index >> 1u)) * 4.0 - 1.0;
    return vec4(corner, 0.0, 1.0);
}

@fragment
fn resolve(@builtin(position) position: vec4<f32>) -> Resolved {
    let texel = vec2<i32>(position.xy);
    let count = i32(textureNumSamples(colours));
    var sum = vec4<f32>();
    var depth = 1.0;
    for (var sample = 0; sample < count; sample++) {
        let stencil = textureLoad(stencils, texel, sample).r;
        if stencil == 0 {
            continue;
        }
        let colour = textureLoad(colours, texel, sample);
        let weight = 1.0 / (1.0 + max(max(colour.r, colour.g), colour.b));
        sum += vec4(colour.rgb * weight, weight);
        depth = min(depth, textureLoad(depths, texel, sample));
    }
    if sum.a == 0.0 {
        discard;
    }
    return Resolved(vec4(sum.rgb / sum.a, 1.0), depth);
}
