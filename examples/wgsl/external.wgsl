// A frame of a video, half of it sampled and half of it read pixel by pixel.

@group(0) @binding(0) var frame: texture_external;
@group(0) @binding(1) var smooth_sampler: sampler;

fn pixel(image: texture_external, place: vec2<f32>) -> vec4<f32> {
    let size = textureDimensions(image);
    return textureLoad(image, min(vec2<u32>(place * vec2<f32>(size)), size - 1u));
}

@fragment
fn shade(@location(0) place: vec2<f32>) -> @location(0) vec4<f32> {
    let smoothed = textureSampleBaseClampToEdge(frame, smooth_sampler, place);
    return select(pixel(frame, place), smoothed, place.x < 0.5);
}
