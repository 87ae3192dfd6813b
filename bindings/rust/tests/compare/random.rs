//! Random numbers from a seed (splitmix64).

pub struct Random(u64);

/// Random numbers for a test, from LAKHIDO_SEED or the clock. Prints the seed before anything can fail.
pub fn seeded() -> Random {
    let seed = match std::env::var("LAKHIDO_SEED") {
        Ok(text) => text.parse().expect("LAKHIDO_SEED is a number"),
        Err(_) => std::time::SystemTime::now().duration_since(std::time::UNIX_EPOCH).map_or(1, |t| t.as_nanos() as u64 % 1_000_000_007),
    };
    println!("{}: seed {seed}", std::thread::current().name().unwrap_or("test"));
    Random::new(seed)
}

/// How many cases a random test takes: LAKHIDO_ROUNDS multiplies its own number.
pub fn rounds(cases: usize) -> usize {
    cases * std::env::var("LAKHIDO_ROUNDS").map_or(1, |text| text.parse().expect("LAKHIDO_ROUNDS is a number"))
}

impl Random {
    pub fn new(seed: u64) -> Self {
        Random(seed)
    }

    pub fn next(&mut self) -> u64 {
        self.0 = self.0.wrapping_add(0x9E37_79B9_7F4A_7C15);
        let mut z = self.0;
        z = (z ^ (z >> 30)).wrapping_mul(0xBF58_476D_1CE4_E5B9);
        z = (z ^ (z >> 27)).wrapping_mul(0x94D0_49BB_1331_11EB);
        z ^ (z >> 31)
    }

    pub fn below(&mut self, n: usize) -> usize {
        (self.next() % n as u64) as usize
    }

    /// A number from lo to hi, both counted.
    pub fn between(&mut self, lo: usize, hi: usize) -> usize {
        lo + self.below(hi - lo + 1)
    }

    /// True one time in n.
    pub fn one_in(&mut self, n: usize) -> bool {
        self.below(n) == 0
    }

    pub fn pick<T: Copy>(&mut self, from: &[T]) -> T {
        from[self.below(from.len())]
    }
}
