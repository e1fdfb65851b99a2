// The exponent is an integer.

fn brightness(color: vec3f, steps: u32) -> f32 {
    let luminance = dot(color, vec3f(0.2126, 0.7152, 0.0722));
    return pow(luminance, steps);
}
