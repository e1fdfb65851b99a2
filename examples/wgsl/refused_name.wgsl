// A name that nothing declares.

fn area(width: f32, height: f32) -> f32 {
    return width * heigth;
}
