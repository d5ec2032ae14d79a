//! Frames with faults in them.

use random::Random;

use crate::layout::{Checked, Drawn, Layout, Presence};
use crate::rows::Rows;

/// Not finite.
const UNFIT: [u32; 5] = [
    0x7F80_0000,
    0xFF80_0000,
    0x7FC0_0000,
    0xFFC0_0001,
    0x7F80_0001,
];

fn put16(frame: &mut [u8], at: usize, value: u16) {
    if frame.len() >= at + 2 {
        frame[at..at + 2].copy_from_slice(&value.to_le_bytes());
    }
}

/// Kinds that are not this one.
fn others(kind: u16) -> Vec<u16> {
    let all = [0, 1, 2, 3, 4, 5, 6, 254, 255, 256, 0xFFFF];
    let mut others: Vec<u16> = all.into_iter().filter(|&k| k != kind).collect();
    others.extend([kind + 256, kind << 8]);
    others
}

/// One fault in the head, or in the number of bytes.
fn head_faults(frame: &[u8], kind: u16) -> Vec<Vec<u8>> {
    let size = frame.len();
    let length = (size - 2) as u16;
    let mut faults = Vec::new();
    for cut in [0, 1, 2, 3, 4, 5, size / 3, size / 2, size - 2, size - 1] {
        if cut < size {
            faults.push(frame[..cut].to_vec());
        }
    }
    for wrong in [
        0,
        1,
        2,
        3,
        length - 1,
        length + 1,
        length + 256,
        length | 0x8000,
        0xFFFE,
        0xFFFF,
    ] {
        let mut other = frame.to_vec();
        put16(&mut other, 0, wrong);
        faults.push(other);
    }
    for other_kind in others(kind) {
        let mut other = frame.to_vec();
        put16(&mut other, 2, other_kind);
        faults.push(other);
    }
    for more in [1, 2, 5, 40] {
        // Bytes left over, with the length as it was and with the length that they make.
        let mut other = frame.to_vec();
        other.extend((0..more).map(|k| k as u8));
        faults.push(other.clone());
        put16(&mut other, 0, length + more);
        faults.push(other);
    }
    for fewer in [1, 2, 3] {
        if length >= 2 + fewer {
            let mut other = frame[..size - fewer as usize].to_vec();
            put16(&mut other, 0, length - fewer);
            faults.push(other);
        }
    }
    // A frame of length 0, 1 and 2 alone.
    faults.push(vec![0, 0]);
    faults.push(vec![1, 0, kind as u8]);
    faults.push(vec![2, 0, kind as u8, (kind >> 8) as u8]);
    faults
}

pub fn heads(rows: &mut Rows, random: &mut Random, kind: &Layout) {
    let drawn = kind.draw(random, Presence::Drawn);
    for frame in head_faults(&drawn.frame, kind.kind) {
        rows.add(kind.kind, drawn.frame.len(), &frame);
    }
}

/// Puts a fault in a place that is checked.
fn spoil(random: &mut Random, frame: &mut [u8], at: usize, checked: Checked) {
    match checked {
        Checked::Below(limit) => frame[at] = random.one_of(&[limit, limit, limit + 1, 128, 255]),
        Checked::Absent(bytes) => {
            let within = random.below(bytes);
            let k = random.one_of(&[0, bytes - 1, within]);
            frame[at + k] = random.one_of(&[1, 2, 128, 255]);
        }
        Checked::Finite => {
            frame[at..at + 4].copy_from_slice(&random.one_of(&UNFIT).to_le_bytes());
        }
    }
}

/// One fault in each place of a body that is checked, from frames whose Options are all absent, all present,
/// and drawn.
pub fn values(rows: &mut Rows, random: &mut Random, kind: &Layout) {
    for presence in [Presence::None, Presence::All, Presence::Drawn] {
        let drawn = kind.draw(random, presence);
        for &(at, checked) in &drawn.checked {
            if presence == Presence::Drawn && random.chance(2) {
                continue;
            }
            let mut frame = drawn.frame.clone();
            match checked {
                Checked::Below(limit) if presence == Presence::All => frame[at] = limit,
                _ => spoil(random, &mut frame, at, checked),
            }
            rows.add(kind.kind, frame.len(), &frame);
        }
    }
    out_of_range(rows, random, kind);
    every_unfit(rows, random, kind);
    every_absent_byte(rows, random, kind);
}

/// The first enums and small numbers, at their limit, one above it, and far above.
fn out_of_range(rows: &mut Rows, random: &mut Random, kind: &Layout) {
    let drawn = kind.draw(random, Presence::All);
    let limits = drawn
        .checked
        .iter()
        .filter_map(|&(at, checked)| match checked {
            Checked::Below(limit) if limit > 2 => Some((at, limit)),
            _ => None,
        });
    for (at, limit) in limits.take(8) {
        for value in [limit - 1, limit, limit + 1, 128, 255] {
            let mut frame = drawn.frame.clone();
            frame[at] = value;
            rows.add(kind.kind, frame.len(), &frame);
        }
    }
}

/// Each float that has to be finite, with each number that is not.
fn every_unfit(rows: &mut Rows, random: &mut Random, kind: &Layout) {
    let drawn = kind.draw(random, Presence::All);
    for &(at, checked) in &drawn.checked {
        for unfit in UNFIT {
            if checked == Checked::Finite {
                let mut frame = drawn.frame.clone();
                frame[at..at + 4].copy_from_slice(&unfit.to_le_bytes());
                rows.add(kind.kind, frame.len(), &frame);
            }
        }
    }
}

/// Absent values with a byte that is not zero: each byte of a long value, one of a short one.
fn every_absent_byte(rows: &mut Rows, random: &mut Random, kind: &Layout) {
    let drawn = kind.draw(random, Presence::None);
    for &(at, checked) in &drawn.checked {
        if let Checked::Absent(bytes) = checked {
            let first = if bytes > 5 { 0 } else { random.below(bytes) };
            let last = if bytes > 5 { bytes } else { first + 1 };
            for k in first..last {
                let mut frame = drawn.frame.clone();
                frame[at + k] = random.one_of(&[1, 128]);
                rows.add(kind.kind, frame.len(), &frame);
            }
        }
    }
}

/// Two to four faults at once: of the body, of the head, or of both.
pub fn several(rows: &mut Rows, random: &mut Random, kind: &Layout) {
    for _ in 0..kind.several {
        let Drawn { mut frame, checked } = kind.draw(random, Presence::Drawn);
        let size = frame.len();
        if !checked.is_empty() {
            for _ in 0..1 + random.below(3) {
                let (at, what) = random.one_of(&checked);
                spoil(random, &mut frame, at, what);
            }
        }
        for _ in 0..random.below(3) {
            match random.below(4) {
                0 => put16(&mut frame, 2, random.one_of(&others(kind.kind))),
                1 => frame.extend([0, 1, 255]),
                2 => {
                    let left = random.below(frame.len() + 1);
                    frame.truncate(left);
                }
                _ => {
                    let length = (size - 2) as u16;
                    let wrong =
                        random.one_of(&[0, 1, 2, length - 1, length + 1, length + 3, 0xFFFF]);
                    put16(&mut frame, 0, wrong);
                }
            }
        }
        let room = random.one_of(&[size, size - 1, 0]);
        rows.add(kind.kind, room, &frame);
    }
}

/// The head's faults of a fence.
pub fn fence_heads(frame: &[u8]) -> Vec<Vec<u8>> {
    head_faults(frame, frames::FENCE)
}
