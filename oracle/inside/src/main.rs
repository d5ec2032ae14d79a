//! `failsafe_inside` beside the Rust's `contains`.
//!   inside [POINTS [SEED]]   that many points over random fences, each answer compared; refusals and later bytes too
//!   inside time              a map of 1,000,000 points, half of them outside, over 4 and over 16 corners
//! Exit status 1: something differs.

use failsafe_core::{Geofence, Point2};
use flights::{Setup, break_fence, fence_frame, once_round};
use frames::{fence_core, read_fence};
use random::{Random, nudged};
use std::time::Instant;

/// The Rust's own, which it does not hand out.
fn edge_signed_distance(a: Point2, b: Point2, p: Point2) -> f32 {
    let (ab_n, ab_e) = (b.n - a.n, b.e - a.e);
    let len = (ab_n * ab_n + ab_e * ab_e).sqrt();
    if len < 1e-6 {
        return -1.0;
    }
    (ab_n * (p.e - a.e) - ab_e * (p.n - a.n)) / len
}

/// The position, counted from 1, of the first side with a negative distance, or all sides where none is.
fn sides_read(fence: &Geofence, p: Point2) -> u8 {
    let n = fence.poly.len();
    let negative = |i: &usize| {
        let (a, b) = (fence.poly.vertex(*i), fence.poly.vertex((i + 1) % n));
        edge_signed_distance(a, b, p) < 0.0
    };
    (0..n).find(negative).map_or(n, |i| i + 1) as u8
}

fn geofence(frame: &[u8]) -> Result<Geofence, u32> {
    fence_core(&read_fence(frame)?)
}

/// Near a side, near a corner, anywhere, and floats of every kind.
fn point(random: &mut Random, fence: &Geofence) -> Point2 {
    let n = fence.poly.len();
    let i = random.below(n);
    let (a, b) = (fence.poly.vertex(i), fence.poly.vertex((i + 1) % n));
    match random.below(6) {
        0 => a,
        1 | 2 => {
            let t = random.between(0.0, 1.0);
            let k = random.below(5) as i32 - 2;
            Point2 {
                n: nudged(a.n + t * (b.n - a.n), k),
                e: nudged(a.e + t * (b.e - a.e), -k),
            }
        }
        3 => Point2 {
            n: random.any(),
            e: random.any(),
        },
        4 => Point2 {
            n: random.special(),
            e: random.scaled(),
        },
        _ => Point2 {
            n: random.between(-1200.0, 1200.0),
            e: random.between(-1200.0, 1200.0),
        },
    }
}

fn bytes(points: &[Point2]) -> Vec<u8> {
    points
        .iter()
        .flat_map(|p| [p.n.to_le_bytes(), p.e.to_le_bytes()].concat())
        .collect()
}

fn differs(what: &str, fence: &[u8]) -> ! {
    println!("{what}\nfence {fence:02X?}\ndiffers");
    std::process::exit(1);
}

/// Some points over one fence, with room for the answers or not.
fn compare(random: &mut Random, frame: &[u8], told: &mut [u64; 19]) -> usize {
    let judged = geofence(frame);
    let count = random.below(60);
    let points: Vec<Point2> = match &judged {
        Ok(fence) => (0..count).map(|_| point(random, fence)).collect(),
        Err(_) => vec![Point2 { n: 0.0, e: 0.0 }; count],
    };
    let mut given = bytes(&points);
    if random.chance(8) {
        given.truncate(given.len() - random.below(8).min(given.len()));
    }
    let room = (2 * count + random.below(4)).saturating_sub(random.below(2) * random.below(3));
    let before: Vec<u8> = (0..room).map(|k| k as u8 ^ 0x5A).collect();
    let mut output = before.clone();
    let number = port::inside(frame, &given, &mut output);
    let due = match &judged {
        Err(number) => *number,
        Ok(_) if given.len() % 8 != 0 => 3,
        Ok(_) if room < given.len() / 4 => 5,
        Ok(_) => 0,
    };
    if number != due {
        differs(&format!("answered {number}, due {due}"), frame);
    }
    if number != 0 {
        if output != before {
            differs("a refused call wrote", frame);
        }
        return 0;
    }
    let fence = judged.expect("an accepted fence");
    for (k, p) in points.iter().enumerate() {
        let (yes, read) = (fence.poly.contains(*p) as u8, sides_read(&fence, *p));
        if output[2 * k..2 * k + 2] != [yes, read] {
            differs(
                &format!(
                    "{p:?}: {:?}, the Rust {:?}",
                    &output[2 * k..2 * k + 2],
                    [yes, read]
                ),
                frame,
            );
        }
        told[read as usize] += 1;
        told[17 + yes as usize] += 1;
    }
    if output[2 * points.len()..] != before[2 * points.len()..] {
        differs("later bytes were changed", frame);
    }
    points.len()
}

fn test(points: usize, seed: u64) {
    let mut random = Random::new(seed);
    let (mut done, mut told) = (0, [0; 19]);
    while done < points {
        let mut frame = if random.chance(6) {
            break_fence(&mut random)
        } else {
            Setup::random(&mut random).fence
        };
        if random.chance(4) {
            frame = once_round(frame);
        }
        if random.chance(20) {
            flights::damage(&mut random, &mut frame);
        }
        for _ in 0..8 {
            done += compare(&mut random, &frame, &mut told);
        }
    }
    println!(
        "seed {seed}: {done} points ({} inside, {} outside), sides read {:?}: nothing differs",
        told[18],
        told[17],
        &told[1..17]
    );
}

/// Nanoseconds a point, the least of some rounds.
fn least(points: usize, mut round: impl FnMut()) -> f64 {
    let times = (0..15).map(|_| {
        let start = Instant::now();
        round();
        start.elapsed().as_secs_f64() * 1e9 / points as f64
    });
    times.fold(f64::INFINITY, f64::min)
}

/// A map of 1,000,000 points by rows, over a square of twice the area of a regular fence: half of them are inside.
fn map(corners: usize) -> (Vec<u8>, Vec<Point2>) {
    let turn = std::f64::consts::TAU / corners as f64;
    let ring: Vec<(f32, f32)> = (0..corners)
        .map(|k| (0.3 + turn * k as f64).sin_cos())
        .map(|(e, n)| (1000.0 * n as f32, 1000.0 * e as f32))
        .collect();
    let half = 1000.0 * (corners as f64 * turn.sin()).sqrt() / 2.0;
    let at = |k: usize| (half * ((2 * k + 1) as f64 / 1000.0 - 1.0)) as f32;
    let points = (0..1_000_000)
        .map(|k| Point2 {
            n: at(k / 1000),
            e: at(k % 1000),
        })
        .collect();
    (fence_frame(5.0, 120.0, &ring), points)
}

fn time_of(frame: &[u8], points: &[Point2], order: &str) {
    let fence = geofence(frame).expect("a regular fence is accepted");
    let given = bytes(points);
    let mut output = vec![0; 2 * points.len()];
    let port = least(points.len(), || {
        assert_eq!(port::inside(frame, &given, &mut output), 0)
    });
    let mut yes = 0;
    let rust = least(points.len(), || {
        yes = points.iter().filter(|p| fence.poly.contains(**p)).count()
    });
    assert_eq!(
        output.iter().step_by(2).map(|b| *b as usize).sum::<usize>(),
        yes
    );
    println!(
        "a map of {} points {order}, {yes} inside, {} corners: {port:.1} ns a point, the Rust's contains {rust:.1}, ratio {:.2}",
        points.len(),
        frame[4],
        port / rust
    );
}

fn time() {
    let mut random = Random::new(1);
    for corners in [4, 16] {
        let (frame, mut points) = map(corners);
        time_of(&frame, &points, "in rows");
        for k in (1..points.len()).rev() {
            points.swap(k, random.below(k + 1));
        }
        time_of(&frame, &points, "in no order");
    }
}

fn main() {
    let words: Vec<String> = std::env::args().skip(1).collect();
    if words == ["time"] {
        return time();
    }
    let mut numbers = words.iter().map(|word| word.parse::<u64>());
    let (Ok(points), Ok(seed)) = (
        numbers.next().unwrap_or(Ok(200_000)),
        numbers.next().unwrap_or(Ok(5)),
    ) else {
        eprintln!("usage: inside [POINTS [SEED]] | inside time");
        std::process::exit(2);
    };
    test(points as usize, seed);
}
