//! Frames with faults in them.

use frames::{CONFIG_FRAME, FENCE_ONCE_ROUND};
use random::Random;

use crate::setup::fence_frame;

/// Damages a frame in one of many ways; some leave it sound.
pub fn damage(random: &mut Random, frame: &mut Vec<u8>) {
    let kinds = [0, 1, 2, 3, 4, 5, 6, 8, 254, 255, 256, 257, 0x0400];
    let old = frame.len();
    match random.below(12) {
        0 => frame.truncate(random.below(old + 1)),
        1 => frame.truncate(random.below(6)),
        2 => frame.extend((0..1 + random.below(40)).map(|k| k as u8)),
        3 => put16(frame, 0, random.below(5) as u16),
        4 => {
            let near = (old as u16)
                .wrapping_add(random.below(9) as u16)
                .wrapping_sub(6);
            put16(frame, 0, near);
        }
        5 => put16(frame, 2, random.one_of(&kinds)),
        6 => put16(frame, 0, random.u32() as u16),
        7..=9 => {
            // Most bytes of a body that can be refused alone are flags and small numbers.
            let byte = random.one_of(&[0, 1, 2, 3, 4, 5, 18, 19, 255]);
            if old > 4 {
                frame[4 + random.below(old - 4)] = byte;
            }
        }
        10 => {
            if old > 8 {
                let at = 4 + random.below(old - 7);
                let bits = random.special().to_bits();
                frame[at..at + 4].copy_from_slice(&bits.to_le_bytes());
            }
        }
        _ => {
            let left = random.below(3);
            frame.clear();
            frame.extend((0..left).map(|_| random.u32() as u8));
        }
    }
}

fn put16(frame: &mut [u8], at: usize, value: u16) {
    if frame.len() >= at + 2 {
        frame[at..at + 2].copy_from_slice(&value.to_le_bytes());
    }
}

/// Breaks one rule of the configuration, or two.
pub fn break_config(random: &mut Random, frame: &mut [u8; CONFIG_FRAME]) {
    let word = |field: usize| 10 + 4 * (field - 3);
    let unfit = [
        0x7FC0_0000,
        0x7F80_0000,
        0xFF80_0000,
        0,
        0x8000_0000,
        0xBF80_0000,
    ];
    for _ in 0..1 + random.below(2) {
        match random.below(8) {
            0 => frame[4] = random.one_of(&[0, 15, 255]),
            1 => put32(frame, 5, random.one_of(&unfit)),
            2 | 3 => {
                let at = word(random.one_of(&[52, 53, 55, 56, 57, 58, 59, 60]));
                put32(frame, at, random.one_of(&unfit));
            }
            4 => {
                let at = word(random.one_of(&[34, 35, 39]));
                put32(frame, at, 20f32.to_bits());
            }
            5 => {
                let at = word(random.one_of(&[7, 8, 49, 51]));
                put32(frame, at, random.one_of(&[0, 600_001, u32::MAX]));
            }
            _ => {
                let height = random.one_of(&[-5000f32, 5000.0, f32::MAX]);
                put32(frame, word(59), height.to_bits());
            }
        }
    }
}

fn put32(frame: &mut [u8], at: usize, value: u32) {
    frame[at..at + 4].copy_from_slice(&value.to_le_bytes());
}

/// A fence frame that is sound as a frame, and whose fence is mostly refused.
pub fn break_fence(random: &mut Random) -> Vec<u8> {
    let count = 3 + random.below(14);
    let middle = random.one_of(&[(0.0, 0.0), (200.0, 0.0)]);
    let mut points = random::circle(random, count, 100.0, middle);
    let (mut low, mut high) = (5.0, 120.0);
    for _ in 0..1 + random.below(2) {
        let at = random.below(points.len().max(1));
        match random.below(10) {
            0 => points.truncate(random.below(3)),
            1 => return crowded(random),
            2 if !points.is_empty() => points[at].0 = random.one_of(&[f32::NAN, f32::INFINITY]),
            3 if !points.is_empty() => points[at].1 = random.one_of(&[10_000.0, 10_001.0, -1e9]),
            4 if !points.is_empty() => points[at] = points[0],
            5 if points.len() > 2 => {
                points[1] = (
                    (points[0].0 + points[2].0) / 2.0,
                    (points[0].1 + points[2].1) / 2.0,
                );
            }
            6 if points.len() > 3 => points.swap(0, 1),
            7 => points = random::circle(random, count, 4.0, (0.0, 0.0)),
            8 => (low, high) = random.one_of(&[(120.0, 5.0), (7.0, 7.0), (f32::NAN, 9.0)]),
            _ => high = random.one_of(&[f32::INFINITY, f32::NAN, 5.0]),
        }
    }
    fence_frame(low, high, &points)
}

/// The same fence as a frame of kind 8.
pub fn once_round(mut fence: Vec<u8>) -> Vec<u8> {
    put16(&mut fence, 2, FENCE_ONCE_ROUND);
    fence
}

/// A star round home, each corner joined with the one `skip` further on: all its turns have one sign. Sometimes too small.
pub fn star(random: &mut Random) -> Vec<u8> {
    let (count, skip) = random.one_of(&[(5, 2), (7, 2), (7, 3), (8, 3), (16, 7)]);
    let radius = random.one_of(&[300.0, 2000.0, 9000.0, 3.0]);
    let round = random::circle(random, count, radius, (0.0, 0.0));
    let mut points: Vec<_> = (0..count).map(|i| round[i * skip % count]).collect();
    if random.chance(2) {
        points.reverse();
    }
    fence_frame(5.0, 120.0, &points)
}

/// 17 corners or more, with the matching length.
fn crowded(random: &mut Random) -> Vec<u8> {
    let count = random.one_of(&[17, 18, 100, 255]);
    let mut frame = fence_frame(5.0, 120.0, &[]);
    frame.extend((0..8 * count).map(|_| random.u32() as u8));
    frame[4] = count as u8;
    let length = (frame.len() - 2) as u16;
    put16(&mut frame, 0, length);
    frame
}
