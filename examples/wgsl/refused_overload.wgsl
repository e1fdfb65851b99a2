// A function of floats that is called with an integer.

@fragment
fn shade(@location(0) light: f32, @location(1) @interpolate(flat) power: u32) -> @location(0) vec4<f32> {
    return vec4<f32>(pow(light, power));
}
