//! Keep-out areas near a place, and their frames, sound or not.

use frames::{AREA, AREAS, AREAS_HELD};
use random::Random;

use crate::damage::{break_fence, damage, star};

pub type Ring = Vec<(f32, f32)>;

/// A body of kind 7.
pub fn area_body(number: u8, ring: &[(f32, f32)]) -> Vec<u8> {
    let mut body = vec![number, ring.len() as u8];
    for (n, e) in ring {
        body.extend(n.to_le_bytes());
        body.extend(e.to_le_bytes());
    }
    body
}

/// The same with the corners of a fence's frame.
fn fenced_body(number: u8, fence: &[u8]) -> Vec<u8> {
    [&[number, fence[4]], &fence[13..]].concat()
}

fn frame(kind: u16, body: &[u8]) -> Vec<u8> {
    let length = (2 + body.len()) as u16;
    [&length.to_le_bytes(), &kind.to_le_bytes(), body].concat()
}

pub fn area_frame(body: &[u8]) -> Vec<u8> {
    frame(AREA, body)
}

pub fn areas_frame(bodies: &[Vec<u8>]) -> Vec<u8> {
    let count = [bodies.len() as u8];
    frame(AREAS, &[&count, bodies.concat().as_slice()].concat())
}

/// A ring with a side at about this distance from a point, in one of four ways; the point is inside where it is negative.
/// Clockwise or counter-clockwise, from any corner.
pub fn ring_near(random: &mut Random, (n, e): (f32, f32), far: f32) -> Ring {
    let deep = random.one_of(&[12.0, 40.0, 300.0]);
    let half = random.one_of(&[7.0, 30.0, 400.0]);
    let off = random.one_of(&[-0.9, 0.0, 0.0, 0.9]) * half;
    let mut ring: Ring = match random.below(4) {
        // A point of the ring stands out towards the place.
        0 => vec![
            (far, off),
            (far + deep, off - half),
            (far + deep, off + half),
        ],
        1 => {
            let count = 3 + random.below(14);
            let radius = random.one_of(&[8.0, 60.0, 500.0]);
            random::circle(random, count, radius, (radius + far as f64, 0.0))
        }
        _ => vec![
            (far, off - half),
            (far, off + half),
            (far + deep, off + half),
            (far + deep, off - half),
        ],
    };
    let way = random.below(4);
    for corner in &mut ring {
        let (ahead, across) = *corner;
        *corner = match way {
            0 => (n + ahead, e + across),
            1 => (n + across, e + ahead),
            2 => (n - ahead, e + across),
            _ => (n + across, e - ahead),
        };
    }
    if random.chance(2) {
        ring.reverse();
    }
    let first = random.below(ring.len());
    ring.rotate_left(first);
    ring
}

/// A ring that the Rust refuses, or home is within, or that is a star.
fn unfit_body(random: &mut Random, number: u8) -> Vec<u8> {
    match random.below(4) {
        0 => fenced_body(number, &star(random)),
        1 => {
            let far = random.one_of(&[-0.0, -1.0, -20.0]);
            area_body(number, &ring_near(random, (0.0, 0.0), far))
        }
        _ => fenced_body(number, &break_fence(random)),
    }
}

/// A body that is mostly refused: its ring, its number, or both.
pub fn break_body(random: &mut Random, body: &[u8]) -> Vec<u8> {
    let mut body = body.to_vec();
    for _ in 0..1 + random.below(2) {
        if random.chance(3) {
            body[0] = random.one_of(&[0, 1, body[0], 255]);
        } else {
            body = unfit_body(random, body[0]);
        }
    }
    body
}

/// A kind 13 frame that is mostly refused: bodies, numbers, their order, too many of them, counts, the head; one fault or
/// several.
pub fn break_areas(random: &mut Random, bodies: &[Vec<u8>]) -> Vec<u8> {
    let mut bodies = bodies.to_vec();
    for _ in 0..1 + random.below(3) {
        let at = random.below(bodies.len() + 1);
        match random.below(8) {
            0 | 1 => {
                let number = random.below(256) as u8;
                bodies.push(unfit_body(random, number));
                bodies.sort_by_key(|body| body[0]);
            }
            2 if at < bodies.len() => bodies[at] = break_body(random, &bodies[at]),
            3 if at < bodies.len() => bodies.push(bodies[at].clone()),
            4 if at < bodies.len() => bodies.swap(0, at),
            5 => crowd(random, &mut bodies),
            6 => bodies.reverse(),
            _ => {}
        }
    }
    let mut frame = areas_frame(&bodies);
    if random.chance(4) {
        frame[4] = random.one_of(&[
            0,
            1,
            frame[4].wrapping_add(1),
            frame[4].wrapping_sub(1),
            255,
        ]);
    }
    // The frame ends within a body, and its length says so.
    if random.chance(6) {
        frame.truncate(4 + random.below(frame.len() - 3));
        let length = (frame.len() - 2) as u16;
        frame[..2].copy_from_slice(&length.to_le_bytes());
    }
    match random.below(8) {
        0 | 1 => damage(random, &mut frame),
        2 => frame[2..4].copy_from_slice(&AREA.to_le_bytes()),
        _ => {}
    }
    frame
}

/// Rings of which none has home inside.
fn away(random: &mut Random) -> Ring {
    ring_near(random, (2000.0, 0.0), 100.0)
}

/// Nine bodies or more, in order of number.
fn crowd(random: &mut Random, bodies: &mut Vec<Vec<u8>>) {
    let most = random.one_of(&[AREAS_HELD + 1, AREAS_HELD + 2, 40, 255]);
    let first = if random.chance(8) { 0 } else { 1 };
    *bodies = (first..first + most)
        .map(|number| area_body(number as u8, &away(random)))
        .collect();
}

/// A kind 13 frame with one fault alone: a number of 0, a ninth area, or home inside.
pub fn refuse_areas(random: &mut Random) -> Vec<u8> {
    let bodies = match random.below(3) {
        0 => vec![area_body(0, &away(random))],
        1 => (1..AREAS_HELD as u8 + 2)
            .map(|number| area_body(number, &away(random)))
            .collect(),
        _ => vec![area_body(1, &random::circle(random, 5, 50.0, (0.0, 0.0)))],
    };
    areas_frame(&bodies)
}
