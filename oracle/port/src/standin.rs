//! The plain Rust entries under the port's names, with a fault where CUTHRANSI_FAULT has a number: the driver
//! has to see each of them.

use std::slice::{from_raw_parts, from_raw_parts_mut};
use std::sync::OnceLock;

use crate::{Entry, slips, slips_wide};

fn fault() -> u32 {
    static FAULT: OnceLock<u32> = OnceLock::new();
    *FAULT.get_or_init(|| {
        let given = std::env::var("CUTHRANSI_FAULT").unwrap_or_default();
        given.parse().unwrap_or(0)
    })
}

#[unsafe(no_mangle)]
extern "C" fn failsafe_step(
    config: *const u8,
    config_len: usize,
    fence: *const u8,
    fence_len: usize,
    state: *mut u8,
    state_len: usize,
    telemetry: *const u8,
    telemetry_len: usize,
    output: *mut u8,
    output_len: usize,
) -> u32 {
    // SAFETY: the driver hands over slices that are alive and do not overlap.
    let (config, fence, state, telemetry, output) = unsafe {
        (
            from_raw_parts(config, config_len),
            from_raw_parts(fence, fence_len),
            from_raw_parts_mut(state, state_len),
            from_raw_parts(telemetry, telemetry_len),
            from_raw_parts_mut(output, output_len),
        )
    };
    let number = frames::step_entry(config, fence, state, telemetry, output);
    match fault() {
        // A byte after the Decision.
        1 if number == 0 && output_len > 95 => output[95] ^= 1,
        // A byte past the buffer.
        // SAFETY: the driver's buffers have room around them.
        2 if number == 0 => unsafe { *output.as_mut_ptr().add(output_len) ^= 1 },
        // A declined call that touches the state.
        3 if number == 27 && state_len > 0 => state[0] ^= 1,
        // Refusals 2 and 3 in the wrong order.
        4 if number == 2 && telemetry_len > 120 => return 3,
        // The streak of refused samples, invented.
        5 if number == 0 && state[174] == 2 => state[174] = 0,
        // The last bit of the margin, at Land.
        6 if number == 0 && output[4] == 4 && output[84] == 1 => output[85] ^= 1,
        // Third faults leave epoch_start.
        7 if number == 0 && state[184] == 0 && output[65] == 1 => state[180..184].fill(0),
        _ => {}
    }
    number
}

#[unsafe(no_mangle)]
extern "C" fn failsafe_step_side(
    config: *const u8,
    config_len: usize,
    fence: *const u8,
    fence_len: usize,
    state: *mut u8,
    state_len: usize,
    telemetry: *const u8,
    telemetry_len: usize,
    output: *mut u8,
    output_len: usize,
) -> u32 {
    // SAFETY: the driver hands over slices that are alive and do not overlap.
    let (config, fence, state, telemetry, output) = unsafe {
        (
            from_raw_parts(config, config_len),
            from_raw_parts(fence, fence_len),
            from_raw_parts_mut(state, state_len),
            from_raw_parts(telemetry, telemetry_len),
            from_raw_parts_mut(output, output_len),
        )
    };
    let number = frames::step_side_entry(config, fence, state, telemetry, output);
    // No side where the first is the nearest.
    if fault() == 9 && number == 0 && output[94] == 0 {
        output[94] = 255;
    }
    number
}

#[unsafe(no_mangle)]
extern "C" fn failsafe_step_areas(
    config: *const u8,
    config_len: usize,
    fence: *const u8,
    fence_len: usize,
    state: *mut u8,
    state_len: usize,
    telemetry: *const u8,
    telemetry_len: usize,
    output: *mut u8,
    output_len: usize,
    areas: *const u8,
    areas_len: usize,
) -> u32 {
    // SAFETY: the driver hands over slices that are alive and do not overlap.
    let (config, fence, state, telemetry, output, mut areas) = unsafe {
        (
            from_raw_parts(config, config_len),
            from_raw_parts(fence, fence_len),
            from_raw_parts_mut(state, state_len),
            from_raw_parts(telemetry, telemetry_len),
            from_raw_parts_mut(output, output_len),
            from_raw_parts(areas, areas_len),
        )
    };
    // The last of the areas is left out, where they are sound.
    let mut fewer = [0; 1100];
    if fault() == 10 && frames::read_areas(areas).is_ok_and(|held| !held.is_empty()) {
        let last = last_number(areas);
        frames::remove_area_entry(areas, last, &mut fewer);
        areas = &fewer[..2 + u16::from_le_bytes([fewer[0], fewer[1]]) as usize];
    }
    let number = frames::step_areas_entry(config, fence, state, telemetry, output, areas);
    match fault() {
        // 0 for the −0 on an area's side.
        11 if number == 0 && output[90..94] == [0, 0, 0, 0x80] => output[93] = 0,
        // The fence's side where an area is nearest.
        12 if number == 0 && output[94] == frames::AREA_SIDE => output[94] = 0,
        // Home's rule before the number's.
        13 if number == 31 => return 32,
        // The state before the areas.
        14 if number == 31 && frames::State::read_frame(state).is_err() => return 4,
        _ => {}
    }
    number
}

/// The highest number of a sound frame that is not empty.
fn last_number(areas: &[u8]) -> u8 {
    let mut at = 5;
    let mut last = 0;
    while let Some(number) = areas.get(at) {
        last = *number;
        at += 2 + 8 * areas[at + 1] as usize;
    }
    last
}

#[unsafe(no_mangle)]
extern "C" fn failsafe_add_area(
    areas: *const u8,
    areas_len: usize,
    area: *const u8,
    area_len: usize,
    output: *mut u8,
    output_len: usize,
) -> u32 {
    // SAFETY: the driver hands over slices that are alive and do not overlap.
    let (areas, area, output) = unsafe {
        (
            from_raw_parts(areas, areas_len),
            from_raw_parts(area, area_len),
            from_raw_parts_mut(output, output_len),
        )
    };
    let number = frames::add_area_entry(areas, area, output);
    match fault() {
        // A ninth before a number that is held.
        15 if number == 31 && areas.get(4) == Some(&8) => return 30,
        // A byte past the frame.
        16 if number == 0 => {
            let size = 2 + u16::from_le_bytes([output[0], output[1]]) as usize;
            if let Some(byte) = output.get_mut(size) {
                *byte ^= 1;
            }
        }
        _ => {}
    }
    number
}

#[unsafe(no_mangle)]
extern "C" fn failsafe_remove_area(
    areas: *const u8,
    areas_len: usize,
    number: u8,
    output: *mut u8,
    output_len: usize,
) -> u32 {
    // SAFETY: the driver hands over slices that are alive and do not overlap.
    let (areas, output) = unsafe {
        (
            from_raw_parts(areas, areas_len),
            from_raw_parts_mut(output, output_len),
        )
    };
    // A number that is not held changes nothing and is no refusal.
    let answer = frames::remove_area_entry(areas, number, output);
    if fault() == 17 && answer == 31 && areas.is_empty() {
        return 0;
    }
    answer
}

#[unsafe(no_mangle)]
extern "C" fn failsafe_fresh(state: *mut u8, state_len: usize) -> u32 {
    // SAFETY: the driver hands over a slice that is alive.
    let state = unsafe { from_raw_parts_mut(state, state_len) };
    let number = frames::fresh_entry(state);
    if fault() == 8 && number == 0 && state_len > 186 {
        state[186] = 0;
    }
    number
}

/// Only so that the drivers link: none of them calls it here.
#[unsafe(no_mangle)]
extern "C" fn failsafe_inside(
    _fence: *const u8,
    _fence_len: usize,
    _points: *const u8,
    _points_len: usize,
    _output: *mut u8,
    _output_len: usize,
) -> u32 {
    unimplemented!()
}

/// A step by one of the three entries, with a slip of kind 11's rule or a fault of its frames.
pub fn step_raised(
    entry: Entry,
    config: &[u8],
    fence: &[u8],
    state: &mut [u8],
    telemetry: &[u8],
    output: &mut [u8],
    areas: &[u8],
) -> u32 {
    let keeping = config.get(2..4) == Some(&frames::CONFIG_RAISED.to_le_bytes());
    // By kind 1's rule, where the entry is the one with areas.
    let slip = match fault() {
        46 if entry == Entry::Areas => 29,
        other => other,
    };
    let slipping =
        |supervisor: &mut _, raised: &mut _, raw: &_| slips::step(slip, supervisor, raised, raw);
    let form = entry.form(areas);
    if !keeping && state.get(2..4) == Some(&frames::STATE_WIDE.to_le_bytes()) {
        return frames::step_any(form, config, fence, state, telemetry, output);
    }
    let number = frames::step_by(slipping, form, config, fence, state, telemetry, output);
    match fault() {
        // A state of kind 5 is judged by its length first.
        40 if keeping && number == 2 && state.len() == frames::STATE_FRAME => return 3,
        // Any byte but 0 is raised.
        41 if keeping && number == 4 && state.len() == frames::RAISED_STATE_FRAME => {
            let mut taken = state.to_vec();
            for byte in &mut taken[frames::STATE_FRAME..] {
                *byte = (*byte).min(1);
            }
            let number =
                frames::step_by(slipping, form, config, fence, &mut taken, telemetry, output);
            if number == 0 {
                state.copy_from_slice(&taken);
            }
            return number;
        }
        // Two of the eight in the wrong order.
        42 if keeping && number == 0 => state.swap(187, 188),
        // A state of kind 12 is taken beside kind 1.
        43 if !keeping && number == 2 && frames::RaisedState::read_frame(state).is_ok() => {
            return 0;
        }
        // The state before the configuration's rules.
        47 if keeping && number == 27 && frames::RaisedState::read_frame(state).is_err() => {
            return 4;
        }
        _ => {}
    }
    number
}

#[unsafe(no_mangle)]
extern "C" fn failsafe_fresh_raised(state: *mut u8, state_len: usize) -> u32 {
    // SAFETY: the driver hands over a slice that is alive.
    let state = unsafe { from_raw_parts_mut(state, state_len) };
    // A state that only has room for kind 5.
    if fault() == 44 && (186..194).contains(&state_len) {
        return 0;
    }
    let number = frames::fresh_raised_entry(state);
    // A byte after the state.
    if fault() == 45 && number == 0 && state_len > 194 {
        state[194] = 0;
    }
    number
}

/// A step by one of the three entries, with a slip of the 64-bit clock or a fault of its frames.
pub fn step_wide(
    entry: Entry,
    config: &[u8],
    fence: &[u8],
    state: &mut [u8],
    telemetry: &[u8],
    output: &mut [u8],
    areas: &[u8],
) -> u32 {
    let form = entry.form(areas);
    slips_wide::step(fault(), form, config, fence, state, telemetry, output)
}

#[unsafe(no_mangle)]
extern "C" fn failsafe_fresh_wide(state: *mut u8, state_len: usize) -> u32 {
    // SAFETY: the driver hands over a slice that is alive.
    let state = unsafe { from_raw_parts_mut(state, state_len) };
    let number = frames::fresh_wide_entry(state);
    match fault() {
        // A state that only has room for kind 5.
        70 if (186..306).contains(&state_len) => return 0,
        // A byte after the state.
        71 if number == 0 && state_len > 306 => state[306] = 0,
        _ => {}
    }
    number
}

#[unsafe(no_mangle)]
extern "C" fn failsafe_widen(
    old: *const u8,
    old_len: usize,
    last_now: u64,
    new: *mut u8,
    new_len: usize,
) -> u32 {
    // SAFETY: the driver hands over slices that are alive and do not overlap.
    let (old, new) = unsafe {
        (
            from_raw_parts(old, old_len),
            from_raw_parts_mut(new, new_len),
        )
    };
    slips_wide::widen(fault(), old, last_now, new)
}
