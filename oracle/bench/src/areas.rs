//! A step beside areas: none, beside the step that writes the side; eight of 16 corners, beside the same work in the Rust. The plain
//! Rust entry beside areas is no fair rival alone: it steps under a fence that it makes for each step (oracle/frames).

use std::hint::black_box;

use failsafe_open::Point2;
use flights::{area_body, areas_frame};
use frames::{AREAS_HELD, fresh_entry, read_areas, step_areas_entry, step_side_entry};
use random::Random;

use crate::{Flight, ROUNDS, ratio, rounds, tell, through};

/// Eight areas of 16 corners each, round the fence's middle at some distance.
fn eight() -> Vec<u8> {
    let mut random = Random::new(11);
    let bodies: Vec<Vec<u8>> = (1..=AREAS_HELD as u8)
        .map(|number| {
            let off = 100.0 + 40.0 * number as f64;
            let middle = if number % 2 == 0 {
                (off, -off)
            } else {
                (-off, off)
            };
            area_body(number, &random::circle(&mut random, 16, 30.0, middle))
        })
        .collect();
    areas_frame(&bodies)
}

/// What the Rust has for each area: from its bytes to `ConvexPolygon::new`, document 02's rule of north steps, home's
/// signed distance, and the position's where there is one.
fn work(flights: &[Flight], areas: &[u8]) {
    for raw in flights.iter().flat_map(|flight| &flight.telemetry) {
        let held = read_areas(black_box(areas)).expect("areas");
        if let Some(sample) = raw.position {
            let (n, e) = (sample.pos.n, sample.pos.e);
            let nearest = held.values(Point2 { n, e }).fold(f32::INFINITY, f32::min);
            black_box(nearest);
        }
        black_box(&held);
    }
}

pub fn areas(flights: &[Flight]) {
    let eight = eight();
    assert!(read_areas(&eight).is_ok(), "the areas are refused");
    let none: &[u8] = &[];
    let [side, empty, full, plain_side, plain_empty, plain_full, rust] = rounds([
        &|| through(flights, port::fresh, port::step_side),
        &|| {
            through(flights, port::fresh, |c, f, s, t, o| {
                port::step_areas(c, f, s, t, o, black_box(none))
            })
        },
        &|| {
            through(flights, port::fresh, |c, f, s, t, o| {
                port::step_areas(c, f, s, t, o, black_box(&eight))
            })
        },
        &|| through(flights, fresh_entry, step_side_entry),
        &|| {
            through(flights, fresh_entry, |c, f, s, t, o| {
                step_areas_entry(c, f, s, t, o, black_box(none))
            })
        },
        &|| {
            through(flights, fresh_entry, |c, f, s, t, o| {
                step_areas_entry(c, f, s, t, o, black_box(&eight))
            })
        },
        &|| work(flights, &eight),
    ]);
    let more = [full[0] - empty[0], full[1] - empty[1]];
    println!("beside areas: ns for each step; median and least of {ROUNDS} rounds");
    tell("failsafe_step_side", side, 1);
    tell("failsafe_step_areas, none", empty, 1);
    tell("failsafe_step_areas, eight of 16", full, 1);
    tell("plain Rust entry with the side", plain_side, 1);
    tell("plain Rust entry, no area", plain_empty, 1);
    tell("plain Rust entry, eight of 16", plain_full, 1);
    tell("the eight areas alone, in the Rust", rust, 1);
    tell(
        "failsafe_step_areas none / step_side",
        ratio(empty, side),
        3,
    );
    tell(
        "failsafe_step_areas eight / plain",
        ratio(full, plain_full),
        3,
    );
    tell("the eight areas / in the Rust", ratio(more, rust), 3);
}
