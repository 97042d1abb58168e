fn double(x: u32) -> u32 {
    x + x
}

fn weigh(a: u32, b: u32) -> u32 {
    let both = a + b;
    let twice = double(both);
    twice + double(a) + 1
}
