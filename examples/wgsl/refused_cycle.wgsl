// Two functions that call each other.

fn is_even(number: u32) -> bool {
    if number == 0 { return true; }
    return is_odd(number - 1);
}

fn is_odd(number: u32) -> bool {
    if number == 0 { return false; }
    return is_even(number - 1);
}
