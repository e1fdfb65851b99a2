// A semicolon is missing.

fn doubled(number: u32) -> u32 {
    let twice = number * 2u
    return twice;
}
