//! Numbers from a fixed seed (splitmix64), and the floats that break careless code.

pub struct Random(u64);

/// Zeros, the subnormal and normal limits, the bounds that the Rust compares with, infinities, NaNs.
pub const SPECIAL: [u32; 30] = [
    0x0000_0000, // +0
    0x8000_0000, // -0
    0x0000_0001, // the least subnormal
    0x8000_0001,
    0x007F_FFFF, // the largest subnormal
    0x0080_0000, // the least normal
    0x8080_0000,
    0x3586_37BC, // just under 1e-6
    0x3586_37BD, // 1e-6
    0x38D1_B717, // 1e-4
    0x3F7F_FFFF, // just under 1
    0x3F80_0000, // 1
    0xBF80_0000,
    0x42C8_0000, // 100
    0xC2C8_0000,
    0x461C_3FFF, // just under 10,000
    0x461C_4000, // 10,000
    0x461C_4001, // just above
    0xC61C_4000,
    0xC61C_4001,
    0x5F00_0000, // 2^63: its square is finite, its cube is not
    0xDF80_0000, // -2^64: its square overflows
    0x7F7F_FFFF, // the largest
    0xFF7F_FFFF,
    0x7F80_0000, // infinities
    0xFF80_0000,
    0x7FC0_0000, // NaNs
    0xFFC0_0000,
    0x7F80_0001,
    0xFFFF_FFFF,
];

impl Random {
    pub fn new(seed: u64) -> Self {
        Random(seed)
    }

    pub fn word(&mut self) -> u64 {
        self.0 = self.0.wrapping_add(0x9E37_79B9_7F4A_7C15);
        let mut z = self.0;
        z = (z ^ (z >> 30)).wrapping_mul(0xBF58_476D_1CE4_E5B9);
        z = (z ^ (z >> 27)).wrapping_mul(0x94D0_49BB_1331_11EB);
        z ^ (z >> 31)
    }

    pub fn u32(&mut self) -> u32 {
        (self.word() >> 32) as u32
    }

    /// From 0 to n - 1.
    pub fn below(&mut self, n: usize) -> usize {
        (self.word() % n as u64) as usize
    }

    pub fn one_of<T: Copy>(&mut self, of: &[T]) -> T {
        of[self.below(of.len())]
    }

    pub fn chance(&mut self, one_in: usize) -> bool {
        self.below(one_in) == 0
    }

    /// Evenly from low to high.
    pub fn between(&mut self, low: f32, high: f32) -> f32 {
        let part = (self.word() >> 40) as f64 / (1u64 << 24) as f64;
        (low as f64 + (high as f64 - low as f64) * part) as f32
    }

    pub fn special(&mut self) -> f32 {
        f32::from_bits(self.one_of(&SPECIAL))
    }

    /// Any bit pattern.
    pub fn any(&mut self) -> f32 {
        f32::from_bits(self.u32())
    }

    /// A finite number of any size, within ±2^40.
    pub fn scaled(&mut self) -> f32 {
        let exponent = self.below(80) as i32 - 40;
        self.between(-2.0, 2.0) * 2f32.powi(exponent)
    }
}

/// The float k places above (below, where k is negative) a finite one that is not near zero.
pub fn nudged(x: f32, k: i32) -> f32 {
    let by = if x.is_sign_negative() { -k } else { k };
    f32::from_bits(x.to_bits().wrapping_add_signed(by))
}

/// n corners (north, east) in order on a circle, about evenly. Only sums, products and quotients of f64, so
/// that every machine gives the same ones.
pub fn circle(random: &mut Random, n: usize, radius: f64, centre: (f64, f64)) -> Vec<(f32, f32)> {
    (0..n)
        .map(|i| {
            let u = (i as f64 + 0.3 + random.between(0.0, 0.4) as f64) / n as f64;
            let t = (u - 0.5) / (2.0 * u * (1.0 - u));
            let (n, e) = ((1.0 - t * t) / (1.0 + t * t), 2.0 * t / (1.0 + t * t));
            let (n, e) = (centre.0 + radius * n, centre.1 + radius * e);
            (n as f32, e as f32)
        })
        .collect()
}
