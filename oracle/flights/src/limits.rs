//! Vectors whose length lies at a limit, along all three axes. Where the squares are summed in another order the root may lie on the
//! other side of the limit: such vectors are looked for.

use failsafe_open::Vec3;
use random::Random;

/// The length by each order of the sum; the first is the Rust's.
fn lengths(v: Vec3) -> [f32; 3] {
    let (n, e, d) = (v.n * v.n, v.e * v.e, v.d * v.d);
    [n + e + d, n + (e + d), n + d + e].map(f32::sqrt)
}

/// Which other orders of the sum answer otherwise than the Rust's to 'at most the limit'.
pub fn orders_told(v: Vec3, limit: f32) -> [bool; 2] {
    let [first, second, third] = lengths(v).map(|length| length <= limit);
    [first != second, first != third]
}

pub fn minus(a: Vec3, b: Vec3) -> Vec3 {
    Vec3 {
        n: a.n - b.n,
        e: a.e - b.e,
        d: a.d - b.d,
    }
}

/// A number, or the float below or above it.
pub fn beside(random: &mut Random, x: f32) -> f32 {
    random.one_of(&[x.next_down(), x, x.next_up()])
}

fn way(random: &mut Random) -> f32 {
    random.between(0.2, 1.0) * random.one_of(&[1.0, -1.0])
}

/// A place about as far from another as the limit, a float beside it on each axis; one that tells the orders of the sum apart, where
/// some tries find one.
pub fn at_limit(random: &mut Random, from: Vec3, limit: f32) -> Vec3 {
    let (n, e, d) = (way(random), way(random), way(random));
    let on = |far: f32| Vec3 {
        n: from.n + n * far,
        e: from.e + e * far,
        d: from.d + d * far,
    };
    let (mut near, mut far) = (0.0, 4.0 * limit);
    for _ in 0..40 {
        let middle = (near + far) / 2.0;
        if lengths(minus(on(middle), from))[0] <= limit {
            near = middle;
        } else {
            far = middle;
        }
    }
    let at = on(near);
    let mut to = at;
    for _ in 0..40 {
        to = Vec3 {
            n: beside(random, at.n),
            e: beside(random, at.e),
            d: beside(random, at.d),
        };
        if orders_told(minus(to, from), limit) != [false; 2] {
            break;
        }
    }
    to
}
