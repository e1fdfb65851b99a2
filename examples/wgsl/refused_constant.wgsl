// The average of no values is no constant.

const SUMS = vec3(2.5, 4, 8);
const COUNTS = vec3(1, 2, 1) - vec3(0, 0, 1);
const AVERAGES = SUMS / COUNTS;

fn average(place: u32) -> f32 {
    return AVERAGES[place];
}
