//! Where the instants stand in frames of kinds 3 and 5, and their frames with each of them in eight bytes.

use crate::codec::{STATE, TELEMETRY};
use crate::wide::{STATE_WIDE, TELEMETRY_WIDE};

/// now_ms, then the stamps: position, gps, voltage_v, percent, remaining_wh, heartbeat, armed, landed, rc_ok, ekf_ok.
pub const TELEMETRY_INSTANTS: [usize; 11] = [4, 9, 38, 51, 60, 69, 78, 83, 89, 95, 101];

/// The 25 timers, the last of them rc_lost_set; the recovery's start, the disarm hold, the stored sample's stamp, last_now,
/// epoch_start. All but the epoch have their flag in the byte before.
pub const STATE_INSTANTS: [usize; 30] = [
    7, 12, 17, 22, 27, 32, 37, 42, 47, 52, 57, 62, 67, 72, 77, 82, 87, 92, 97, 102, 107, 112, 117,
    122, 128, 136, 141, 146, 176, 180,
];
pub const RECOVERY: usize = 25;
pub const DISARM: usize = 26;
pub const STORED: usize = 27;
pub const LAST_NOW: usize = 28;
pub const EPOCH: usize = 29;

/// The place in a frame of kind 9 or 10 of the instant with this number among those of kind 3 or 5.
pub const fn wide_place(instants: &[usize], number: usize) -> usize {
    instants[number] + 4 * number
}

/// The place in a frame of kind 9 or 10 of a byte of kind 3 or 5 that is none of an instant's.
pub fn wide_byte(instants: &[usize], at: usize) -> usize {
    at + 4 * instants.iter().filter(|&&instant| instant < at).count()
}

pub fn instant(frame: &[u8], at: usize) -> u64 {
    let bytes = frame[at..].first_chunk().expect("eight bytes");
    u64::from_le_bytes(*bytes)
}

pub fn put_instant(frame: &mut [u8], at: usize, value: u64) {
    frame[at..at + 8].copy_from_slice(&value.to_le_bytes());
}

/// A sound frame of kind 9 or 10 with the lower halves of its instants alone: kind 3 or 5.
pub fn narrowed(frame: &[u8]) -> Vec<u8> {
    let (kind, instants): (u16, &[usize]) = match u16::from_le_bytes([frame[2], frame[3]]) {
        TELEMETRY_WIDE => (TELEMETRY, &TELEMETRY_INSTANTS),
        STATE_WIDE => (STATE, &STATE_INSTANTS),
        other => panic!("no frame with instants of 64 bits: kind {other}"),
    };
    let mut narrow = frame.to_vec();
    for number in (0..instants.len()).rev() {
        let upper = wide_place(instants, number) + 4;
        narrow.drain(upper..upper + 4);
    }
    let length = narrow.len() as u16 - 2;
    narrow[..2].copy_from_slice(&length.to_le_bytes());
    narrow[2..4].copy_from_slice(&kind.to_le_bytes());
    narrow
}

/// A sound frame of kind 3 with each instant in eight bytes, as `widen` gives it: kind 9. What is absent stays zero.
pub fn widened_telemetry(frame: &[u8], mut widen: impl FnMut(usize, u32) -> u64) -> Vec<u8> {
    let mut wide = frame.to_vec();
    for (number, &at) in TELEMETRY_INSTANTS.iter().enumerate() {
        let now_or_present = number == 0 || frame[at - 1] == 1;
        let low = u32::from_le_bytes(*frame[at..].first_chunk().expect("four bytes"));
        let value = if now_or_present {
            widen(number, low)
        } else {
            0
        };
        let to = wide_place(&TELEMETRY_INSTANTS, number);
        wide.splice(to..to + 4, value.to_le_bytes());
    }
    let length = wide.len() as u16 - 2;
    wide[..2].copy_from_slice(&length.to_le_bytes());
    wide[2..4].copy_from_slice(&TELEMETRY_WIDE.to_le_bytes());
    wide
}
