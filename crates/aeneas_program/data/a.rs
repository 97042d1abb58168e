fn add1(x: u32) -> u32 { x + 1 }
