//! Polygons, fences and distances.

use failsafe_core::{ConvexPolygon, FenceError, Geofence, MAX_FENCE_VERTS, Point2};

use crate::rows::{Asks, Rows, answered, fence_number, given};
use random::{Random, SPECIAL, nudged};

pub type Corners = Vec<Point2>;

pub fn add(rows: &mut Rows, random: &mut Random) {
    counts(rows, random);
    rounds(rows, random);
    stars(rows, random);
    unfit_corners(rows, random);
    duplicates(rows, random);
    small_turns(rows);
    mixed_turns(rows, random);
    rounded_turns(rows, random);
    areas(rows, random);
    rounded_areas(rows, random);
    several_faults(rows, random);
    any_corners(rows, random);
    altitudes(rows, random);
    distances(rows, random);
}

pub fn corners(of: &[(f32, f32)]) -> Corners {
    of.iter().map(|&(n, e)| Point2 { n, e }).collect()
}

/// A polygon as the end of a row: its count, then at most sixteen corners. Where there are more, the
/// count alone decides.
pub fn polygon_words(points: &[Point2]) -> Vec<u32> {
    let mut words = vec![points.len() as u32];
    for p in points.iter().take(MAX_FENCE_VERTS) {
        words.extend([given(p.n), given(p.e)]);
    }
    words
}

/// 0, the count, and all sixteen places that are held.
fn held_words(poly: &ConvexPolygon) -> Vec<u32> {
    let mut words = vec![0, poly.len() as u32];
    for i in 0..MAX_FENCE_VERTS {
        let p = poly.vertex(i);
        words.extend([answered(p.n), answered(p.e)]);
    }
    words
}

pub fn fence_words(fence: Result<Geofence, FenceError>) -> Vec<u32> {
    match fence {
        Ok(fence) => {
            let mut words = held_words(&fence.poly);
            words.extend([answered(fence.max_alt_m), answered(fence.min_alt_m)]);
            words
        }
        Err(error) => vec![fence_number(error)],
    }
}

fn add_polygon(rows: &mut Rows, points: &[Point2]) {
    let answer = match ConvexPolygon::new(points) {
        Ok(poly) => held_words(&poly),
        Err(error) => vec![fence_number(error)],
    };
    rows.add(Asks::Polygon, &polygon_words(points), &answer);
}

/// Both ways round.
fn add_both(rows: &mut Rows, points: &[Point2]) {
    add_polygon(rows, points);
    let back: Corners = points.iter().rev().copied().collect();
    add_polygon(rows, &back);
}

pub fn circle(random: &mut Random, n: usize, radius: f64, centre: (f64, f64)) -> Corners {
    corners(&random::circle(random, n, radius, centre))
}

fn centre(random: &mut Random, within: f32) -> (f64, f64) {
    let n = random.between(-within, within);
    (n as f64, random.between(-within, within) as f64)
}

/// One that is accepted.
pub fn good(random: &mut Random) -> Corners {
    loop {
        let n = 3 + random.below(14);
        let radius = random.one_of(&[15.0, 40.0, 300.0, 2500.0, 5000.0]);
        let middle = centre(random, 4000.0);
        let mut points = circle(random, n, radius, middle);
        if random.chance(2) {
            points.reverse();
        }
        if ConvexPolygon::new(&points).is_ok() {
            return points;
        }
    }
}

fn counts(rows: &mut Rows, random: &mut Random) {
    for n in [0, 1, 2, 3, 15, 16, 17, 18, 32, 255, 256, 65_535] {
        add_polygon(rows, &circle(random, n, 500.0, (0.0, 0.0)));
        if n > 0 {
            let mut unfit = circle(random, n, 500.0, (0.0, 0.0));
            unfit[0].n = f32::NAN;
            add_polygon(rows, &unfit);
        }
    }
}

fn rounds(rows: &mut Rows, random: &mut Random) {
    for n in 3..=16 {
        for radius in [1e-30, 1e-3, 0.5, 7.0, 12.0, 500.0, 5999.0, 9000.0] {
            let points = circle(random, n, radius, (0.0, 0.0));
            add_both(rows, &points);
        }
        let middle = centre(random, 9000.0);
        add_both(rows, &circle(random, n, 900.0, middle));
    }
    let most = 10_000.0;
    let square = [(-most, -most), (-most, most), (most, most), (most, -most)];
    add_both(rows, &corners(&square));
}

/// The corners of a circle taken every k-th: equal turns, and sides that cross.
fn stars(rows: &mut Rows, random: &mut Random) {
    for n in 5..=16 {
        for k in 2..n - 1 {
            let points = circle(random, n, 400.0, (30.0, -20.0));
            let star: Corners = (0..n).map(|i| points[i * k % n]).collect();
            add_polygon(rows, &star);
        }
    }
}

/// Corners at and beyond the limits, and such as are not numbers, at every place of short polygons.
fn unfit_corners(rows: &mut Rows, random: &mut Random) {
    for bits in SPECIAL {
        let x = f32::from_bits(bits);
        for n in [3, 4] {
            let points = circle(random, n, 8000.0, (0.0, 0.0));
            for i in 0..n {
                let mut changed = points.clone();
                changed[i].n = x;
                add_polygon(rows, &changed);
                changed[i] = points[i];
                changed[i].e = x;
                add_polygon(rows, &changed);
            }
        }
        let mut points = circle(random, 16, 8000.0, (0.0, 0.0));
        points[15].e = x;
        add_polygon(rows, &points);
    }
}

/// Two corners alike, at every two places; the zeros of the last ones differ in sign alone.
fn duplicates(rows: &mut Rows, random: &mut Random) {
    for n in 3..=16 {
        for i in 0..n {
            for j in i + 1..n {
                if n < 6 || n == 16 || j == n - 1 {
                    let mut points = circle(random, n, 700.0, (0.0, 0.0));
                    points[j] = points[i];
                    add_polygon(rows, &points);
                }
            }
        }
        let mut points = circle(random, n, 700.0, (0.0, 0.0));
        points[n - 2] = Point2 { n: 0.0, e: -0.0 };
        points[n - 1] = Point2 { n: -0.0, e: 0.0 };
        add_polygon(rows, &points);
    }
}

/// One turn of a size around 0.0001, at every place, in both directions and to either side.
fn small_turns(rows: &mut Rows) {
    let limit = 1e-4f32;
    for k in [-2, -1, 0, 1, 2] {
        for sign in [1.0, -1.0] {
            let turn = sign * nudged(limit, k);
            let points = corners(&[
                (0.0, 0.0),
                (1.0, 0.0),
                (2.0, turn),
                (2.0, 100.0),
                (0.0, 100.0),
            ]);
            for first in 0..points.len() {
                let mut turned = points.clone();
                turned.rotate_left(first);
                add_both(rows, &turned);
            }
        }
    }
    for turn in [0.0, -0.0, 1e-30, 9e-5, 1.1e-4, 1e-3] {
        let points = corners(&[
            (0.0, 0.0),
            (1.0, 0.0),
            (2.0, turn),
            (2.0, 100.0),
            (0.0, 100.0),
        ]);
        add_both(rows, &points);
    }
}

fn mixed_turns(rows: &mut Rows, random: &mut Random) {
    for _ in 0..60 {
        let mut points = good(random);
        let i = random.below(points.len());
        let j = random.below(points.len());
        points.swap(i, j);
        add_polygon(rows, &points);
    }
    for _ in 0..60 {
        let mut points = good(random);
        let n = points.len();
        let i = random.below(n);
        let (a, b) = (points[(i + 1) % n], points[(i + n - 1) % n]);
        let part = random.between(-0.2, 1.2);
        points[i] = Point2 {
            n: a.n * part + b.n * (1.0 - part),
            e: a.e * part + b.e * (1.0 - part),
        };
        add_polygon(rows, &points);
    }
}

fn size_of_turn(a: Point2, b: Point2, c: Point2) -> f32 {
    (b.n - a.n) * (c.e - b.e) - (b.e - a.e) * (c.n - b.n)
}

fn sign_of_turn(a: Point2, b: Point2, c: Point2) -> f32 {
    (b.n - a.n) * (c.e - a.e) - (b.e - a.e) * (c.n - a.n)
}

/// Nearly straight corners at large distances, where rounding gives the turn's size and its sign,
/// which are two formulas in the Rust, different signs.
fn rounded_turns(rows: &mut Rows, random: &mut Random) {
    let mut found = 0;
    while found < 40 {
        let a = Point2 {
            n: random.between(-9000.0, -100.0),
            e: random.between(-9000.0, -7000.0),
        };
        let c = Point2 {
            n: random.between(100.0, 9000.0),
            e: random.between(-9000.0, -7000.0),
        };
        let part = random.between(0.1, 0.9);
        let b = Point2 {
            n: a.n + (c.n - a.n) * part,
            e: a.e + (c.e - a.e) * part,
        };
        let (size, sign) = (size_of_turn(a, b, c), sign_of_turn(a, b, c));
        let unlike = sign == 0.0 || size.signum() != sign.signum();
        if size.abs() >= 1e-4 && unlike {
            let mut points = vec![a, b, c];
            points.extend(corners(&[(9500.0, 9000.0), (-9500.0, 9000.0)]));
            add_both(rows, &points);
            found += 1;
        }
    }
}

/// Areas around 100: near the origin exact, further out as rounding has them.
fn areas(rows: &mut Rows, random: &mut Random) {
    for last in [10.0, 19.9, 20.0, 20.1] {
        add_both(rows, &corners(&[(0.0, 0.0), (0.0, last), (10.0, 0.0)]));
    }
    for k in -3..=3 {
        add_both(
            rows,
            &corners(&[(0.0, 0.0), (0.0, nudged(20.0, k)), (10.0, 0.0)]),
        );
        let side = nudged(5.0, k);
        let square = [(-5.0, -5.0), (-5.0, 5.0), (5.0, 5.0), (5.0, -side)];
        add_both(rows, &corners(&square));
    }
    for n in 3..=16 {
        for out in [0.0, 1000.0, 9900.0] {
            let middle = centre(random, out);
            // The radius at which about even corners on a circle have an area of 100.
            let radius = match n {
                3 => 8.8,
                4 => 7.1,
                5 => 6.5,
                6 => 6.2,
                _ => 5.9,
            };
            for scale in [0.97, 1.0, 1.03] {
                let points = circle(random, n, radius * scale, middle);
                add_both(rows, &points);
            }
        }
    }
}

fn twice_area(points: &[Point2], joined: bool) -> f32 {
    let mut sum = 0.0;
    for (i, a) in points.iter().enumerate() {
        let b = points[(i + 1) % points.len()];
        sum = if joined {
            sum + (a.n * b.e - b.n * a.e)
        } else {
            sum + a.n * b.e - b.n * a.e
        };
    }
    sum
}

/// Polygons far out whose area is at least 100 or not as the order of the sums has it.
fn rounded_areas(rows: &mut Rows, random: &mut Random) {
    let mut found = 0;
    while found < 30 {
        let n = 3 + random.below(14);
        let middle = centre(random, 3000.0);
        let radius = random.between(5.8, 9.0) as f64;
        let points = circle(random, n, radius, middle);
        let small = |joined| twice_area(&points, joined).abs() < 200.0;
        let turns = (0..n).all(|i| {
            size_of_turn(points[i], points[(i + 1) % n], points[(i + 2) % n]) >= 1e-4
                && sign_of_turn(points[i], points[(i + 1) % n], points[(i + 2) % n]) > 0.0
        });
        if turns && small(true) != small(false) {
            add_both(rows, &points);
            found += 1;
        }
    }
}

/// Spoils a polygon in one way; the ways are the errors' order.
fn spoil(random: &mut Random, points: &mut Corners, way: usize) {
    let n = points.len();
    let i = random.below(n);
    match way {
        0 => points[i].n = random.one_of(&[f32::NAN, f32::INFINITY, f32::NEG_INFINITY]),
        1 => points[i].e = random.one_of(&[10_000.001, -10_001.0, 1e30, nudged(-1e4, -1)]),
        2 => points[i] = points[(i + 1 + random.below(n - 1)) % n],
        3 => {
            let (a, c) = (points[(i + n - 1) % n], points[(i + 1) % n]);
            points[i] = Point2 {
                n: (a.n + c.n) / 2.0,
                e: (a.e + c.e) / 2.0,
            };
        }
        4 => points.swap(i, (i + 2) % n),
        _ => {
            for p in points.iter_mut() {
                p.n *= 0.01;
                p.e *= 0.01;
            }
        }
    }
}

fn several_faults(rows: &mut Rows, random: &mut Random) {
    for first in 0..6 {
        for second in 0..6 {
            for _ in 0..4 {
                let n = 4 + random.below(6);
                let mut points = circle(random, n, 300.0, (10.0, 20.0));
                // The later error's fault is made first, so that it cannot undo the other one's.
                spoil(random, &mut points, first.max(second));
                spoil(random, &mut points, first.min(second));
                add_polygon(rows, &points);
            }
        }
    }
}

fn any_corners(rows: &mut Rows, random: &mut Random) {
    for k in 0..150 {
        let n = 3 + random.below(4);
        let points: Corners = (0..n)
            .map(|_| {
                let mut one = || match k % 3 {
                    0 => random.special(),
                    1 => random.between(-10_000.0, 10_000.0),
                    _ => random.below(21) as f32 - 10.0,
                };
                Point2 { n: one(), e: one() }
            })
            .collect();
        add_polygon(rows, &points);
    }
}

fn add_fence(rows: &mut Rows, points: &[Point2], min: f32, max: f32) {
    let fence = ConvexPolygon::new(points).and_then(|poly| Geofence::new(poly, min, max));
    let mut asked = vec![given(min), given(max)];
    asked.extend(polygon_words(points));
    rows.add(Asks::Fence, &asked, &fence_words(fence));
}

fn altitudes(rows: &mut Rows, random: &mut Random) {
    let square = corners(&[(-50.0, -50.0), (-50.0, 50.0), (50.0, 50.0), (50.0, -50.0)]);
    let mut pairs = vec![
        (5.0, 120.0),
        (120.0, 5.0),
        (5.0, 5.0),
        (5.0, nudged(5.0, 1)),
        (nudged(5.0, 1), 5.0),
    ];
    for x in SPECIAL {
        let x = f32::from_bits(x);
        pairs.extend([(x, 120.0), (5.0, x), (x, x), (x, -x)]);
    }
    for _ in 0..40 {
        pairs.push((random.scaled(), random.scaled()));
    }
    for (min, max) in pairs {
        add_fence(rows, &square, min, max);
    }
    for way in 0..6 {
        let mut points = circle(random, 5, 300.0, (0.0, 0.0));
        spoil(random, &mut points, way);
        add_fence(rows, &points, 7.0, 3.0);
    }
}

fn add_distance(rows: &mut Rows, points: &[Point2], p: Point2) {
    let answer = match ConvexPolygon::new(points) {
        Ok(poly) => vec![
            0,
            answered(poly.signed_distance(p)),
            poly.contains(p) as u32,
        ],
        Err(error) => vec![fence_number(error)],
    };
    let mut asked = vec![given(p.n), given(p.e)];
    asked.extend(polygon_words(points));
    rows.add(Asks::Distance, &asked, &answer);
}

fn distances(rows: &mut Rows, random: &mut Random) {
    let home = corners(&[
        (-500.0, -500.0),
        (-500.0, 500.0),
        (500.0, 500.0),
        (500.0, -500.0),
    ]);
    for (n, e) in [
        (0.0, 0.0),
        (495.0, 0.0),
        (501.0, 0.0),
        (500.0, 500.0),
        (500.0, nudged(500.0, 1)),
        (-0.0, -0.0),
    ] {
        add_distance(rows, &home, Point2 { n, e });
    }
    for x in SPECIAL {
        let x = f32::from_bits(x);
        for p in [(x, 0.0), (0.0, x), (x, x), (-x, x)] {
            add_distance(rows, &home, Point2 { n: p.0, e: p.1 });
        }
    }
    for _ in 0..120 {
        let points = good(random);
        near(rows, random, &points);
    }
    short_sides(rows, random);
    let star = circle(random, 7, 400.0, (0.0, 0.0));
    let star: Corners = (0..7).map(|i| star[i * 3 % 7]).collect();
    for _ in 0..20 {
        let p = Point2 {
            n: random.between(-500.0, 500.0),
            e: random.between(-500.0, 500.0),
        };
        add_distance(rows, &star, p);
    }
}

/// A point inside, a corner, points on a side and beside it, and one anywhere.
fn near(rows: &mut Rows, random: &mut Random, points: &[Point2]) {
    let n = points.len();
    let i = random.below(n);
    let (a, b) = (points[i], points[(i + 1) % n]);
    let far = points[(i + n / 2) % n];
    let part = random.between(0.0, 1.0);
    let on = Point2 {
        n: a.n + (b.n - a.n) * part,
        e: a.e + (b.e - a.e) * part,
    };
    let inside = Point2 {
        n: (on.n + far.n) / 2.0,
        e: (on.e + far.e) / 2.0,
    };
    let any = Point2 {
        n: random.between(-10_000.0, 10_000.0),
        e: random.scaled(),
    };
    let beside = Point2 {
        n: nudged(on.n, random.one_of(&[-1, 1])),
        e: on.e,
    };
    for p in [a, on, inside, beside, any] {
        add_distance(rows, points, p);
    }
}

/// A side of a length around 1e-6, in polygons that are accepted.
fn short_sides(rows: &mut Rows, random: &mut Random) {
    for k in [-40_000, -2, -1, 0, 1, 2, 40_000] {
        let side = nudged(1e-6, k);
        let points = corners(&[(0.0, 0.0), (side, 0.0), (800.0, 800.0), (-800.0, 800.0)]);
        let slanted = corners(&[
            (0.0, side),
            (side, 0.0),
            (900.0, 0.0),
            (900.0, 900.0),
            (0.0, 900.0),
        ]);
        for points in [points, slanted] {
            let p = Point2 {
                n: random.between(-100.0, 100.0),
                e: random.between(100.0, 700.0),
            };
            add_distance(rows, &points, p);
            add_distance(rows, &points, Point2 { n: 0.0, e: 0.0 });
        }
    }
}
