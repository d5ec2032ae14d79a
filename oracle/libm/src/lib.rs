//! The three functions of libm that the Rust calls. The Rust's source does not hold their bodies, so
//! each is what the scope says of it.

/// The machine's own square root, which IEEE 754 rounds to the nearest number.
pub fn sqrtf(x: f32) -> f32 {
    x.sqrt()
}

/// The larger one. A NaN is dropped, and of two unlike zeros the answer is +0.
pub fn fmaxf(x: f32, y: f32) -> f32 {
    if x.is_nan() || x < y {
        y
    } else if y.is_nan() || y < x {
        x
    } else if x.is_sign_negative() {
        y
    } else {
        x
    }
}

/// The number without its sign.
pub fn fabsf(x: f32) -> f32 {
    f32::from_bits(x.to_bits() & 0x7fff_ffff)
}
