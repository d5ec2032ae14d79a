//! Fences: of every count, sound and refused by the fence rules, and with faults in their frames.

use flights::{break_fence, fence_frame, once_round, star};
use frames::FENCE;
use random::{Random, circle};

use crate::damage::fence_heads;
use crate::rows::Rows;

/// The bytes that a fence's frame takes when it is written.
fn size(frame: &[u8]) -> usize {
    13 + 8 * (frame[4] as usize).min(16)
}

fn with_room_and_short(rows: &mut Rows, random: &mut Random, frame: &[u8]) {
    let size = size(frame);
    rows.add(FENCE, size + random.one_of(&[0, 0, 1, 40]), frame);
    if random.chance(2) {
        let room = random.one_of(&[size - 1, size - 1, 12, 3, 0]);
        rows.add(FENCE, room, frame);
    }
}

/// A frame with this many corners of any bits, and the matching length.
fn crowd(random: &mut Random, count: u8) -> Vec<u8> {
    let mut frame = fence_frame(random.special(), random.any(), &[]);
    frame.extend((0..8 * count as usize).map(|_| random.u32() as u8));
    frame[4] = count;
    let length = (frame.len() - 2) as u16;
    frame[..2].copy_from_slice(&length.to_le_bytes());
    frame
}

/// Frames whose count and length disagree.
fn disagreeing(random: &mut Random, frame: &[u8]) -> Vec<u8> {
    let mut other = frame.to_vec();
    let old = other[4];
    other[4] = random.one_of(&[
        old.wrapping_sub(1),
        old.wrapping_add(1),
        0,
        17,
        255,
        old ^ 128,
        old.wrapping_add(32),
    ]);
    if other[4] == old {
        other[4] = old ^ 64;
    }
    other
}

pub fn add(rows: &mut Rows, random: &mut Random) {
    for count in 3..=16 {
        let corners = circle(random, count, 300.0, (20.0, -10.0));
        let frame = fence_frame(5.0, 120.0, &corners);
        rows.add(FENCE, frame.len() - 1, &frame);
        with_room_and_short(rows, random, &frame);
    }
    for count in (0..=18).chain([30, 31, 32, 33, 100, 254, 255]) {
        let frame = crowd(random, count);
        with_room_and_short(rows, random, &frame);
    }
    for _ in 0..130 {
        let frame = break_fence(random);
        with_room_and_short(rows, random, &frame);
    }
    for count in [0, 3, 4, 16, 17] {
        let frame = crowd(random, count);
        for fault in fence_heads(&frame) {
            rows.add(FENCE, 141, &fault);
        }
        for _ in 0..6 {
            rows.add(FENCE, 141, &disagreeing(random, &frame));
        }
    }
    // Several faults: a count that disagrees, and one in the head.
    for _ in 0..40 {
        let corners = random.below(17) as u8;
        let frame = crowd(random, corners);
        let mut faults = fence_heads(&disagreeing(random, &frame));
        let which = random.below(faults.len());
        rows.add(FENCE, 141, &faults.swap_remove(which));
    }
}

/// The same as kind 8, and stars as both kinds.
pub fn add_once_round(rows: &mut Rows, random: &mut Random) {
    for count in 3..=16 {
        let corners = circle(random, count, 300.0, (20.0, -10.0));
        let frame = once_round(fence_frame(5.0, 120.0, &corners));
        with_room_and_short(rows, random, &frame);
    }
    for _ in 0..16 {
        let frame = star(random);
        rows.add(FENCE, 141, &frame);
        rows.add(FENCE, 141, &once_round(frame));
    }
    for _ in 0..40 {
        let frame = once_round(break_fence(random));
        with_room_and_short(rows, random, &frame);
    }
    for count in [0, 3, 16, 17] {
        let frame = once_round(crowd(random, count));
        for fault in fence_heads(&frame) {
            rows.add(FENCE, 141, &fault);
        }
        rows.add(FENCE, 141, &disagreeing(random, &frame));
    }
}
