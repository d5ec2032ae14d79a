//! Slips of the 64-bit clock: the due step on instants that were put elsewhere first, or a fault of its frames.

use frames::places::{
    DISARM, EPOCH, LAST_NOW, RECOVERY, STATE_INSTANTS, STORED, TELEMETRY_INSTANTS, instant,
    put_instant, wide_place,
};
use frames::{
    CONFIG_RAISED, Form, NO_ROOM, STATE, State, TELEMETRY, TELEMETRY_WIDE, WIDE_STATE_FRAME,
    WIDE_TELEMETRY_FRAME, WideState, read_frame, step_any, widen_entry,
};

const HALF: u64 = 1 << 31;
const WHOLE: u64 = 1 << 32;
const HEARTBEAT: usize = 6;

fn stamp_place(number: usize) -> usize {
    wide_place(&TELEMETRY_INSTANTS, number)
}

fn held_place(number: usize) -> usize {
    wide_place(&STATE_INSTANTS, number)
}

fn kind(frame: &[u8]) -> Option<u16> {
    Some(u16::from_le_bytes([*frame.get(2)?, *frame.get(3)?]))
}

fn telemetry_fits(frame: &[u8]) -> bool {
    read_frame::<failsafe_wide::Telemetry>(TELEMETRY_WIDE, frame).is_ok()
}

/// Stamps as the fault takes them.
fn slip_stamps(fault: u32, telemetry: &mut [u8]) {
    let now = instant(telemetry, 4);
    let ahead = now.saturating_add(1);
    for number in 1..TELEMETRY_INSTANTS.len() {
        let at = stamp_place(number);
        let present = telemetry[at - 1] == 1;
        let age = now.checked_sub(instant(telemetry, at));
        let to = match (fault, age) {
            // No age from 2^31 on, as on the 32-bit clock; of the position alone.
            (50, Some(HALF..)) => ahead,
            (51, Some(HALF..)) if number == 1 => ahead,
            // Ages of 32 bits: the upper half is lost, or one above is the largest.
            (52, Some(age)) => now - age % WHOLE,
            (53, Some(WHOLE..)) => now - (WHOLE - 1),
            // A stamp ahead by less than 2^31 is of now.
            (54, None) if instant(telemetry, at) - now < HALF => now,
            _ => continue,
        };
        if present {
            put_instant(telemetry, at, to);
        }
    }
    let at = stamp_place(HEARTBEAT);
    let absent = telemetry[at - 1] == 0 || instant(telemetry, at) > now;
    if absent && now > WHOLE {
        let to = match fault {
            // No heartbeat is above every limit; or is one below the largest.
            55 => now - WHOLE,
            56 => now - (WHOLE - 2),
            _ => return,
        };
        telemetry[at - 1] = 1;
        put_instant(telemetry, at, to);
    }
}

/// Which held instants the fault takes for others.
fn slips_held(fault: u32, number: usize) -> bool {
    match fault {
        57 => number < RECOVERY,
        58 | 61 => number == RECOVERY,
        59 => number == DISARM,
        60 | 66 => number == STORED,
        62 | 63 => number == LAST_NOW,
        _ => false,
    }
}

/// A held instant as the fault takes it.
fn slip_held(fault: u32, now: u64, then: u64) -> u64 {
    match (fault, now.checked_sub(then)) {
        // No hold is met from 2^31 on: by timers, by the quiet stretch, by the disarm gate. The stored sample has no age then.
        (57..=60, Some(HALF..)) => now.saturating_add(1),
        // The quiet stretch, or the stored sample's age, has lost its upper half.
        (61 | 66, Some(age)) => now - age % WHOLE,
        // A gap of 2^31 is a clock fault.
        (62, Some(HALF..)) => now.saturating_add(1),
        // A reading further back than 2^31 is none.
        (63, None) if then - now >= HALF => now,
        _ => then,
    }
}

/// The due step on slipped instants; what it leaves alone is put back.
fn slipped(
    fault: u32,
    form: Form,
    config: &[u8],
    fence: &[u8],
    state: &mut [u8],
    telemetry: &[u8],
    output: &mut [u8],
) -> u32 {
    let (old, mut telemetry) = (state.to_vec(), telemetry.to_vec());
    let now = instant(&telemetry, 4);
    slip_stamps(fault, &mut telemetry);
    let mut moved = Vec::new();
    for number in 0..EPOCH {
        let at = held_place(number);
        let then = instant(&old, at);
        let to = slip_held(fault, now, then);
        if old[at - 1] == 1 && slips_held(fault, number) && to != then {
            put_instant(state, at, to);
            moved.push((at, to));
        }
    }
    let answer = step_any(form, config, fence, state, &telemetry, output);
    for (at, to) in moved {
        if instant(state, at) == to {
            state[at..at + 8].copy_from_slice(&old[at..at + 8]);
        }
    }
    answer
}

pub fn step(
    fault: u32,
    form: Form,
    config: &[u8],
    fence: &[u8],
    state: &mut [u8],
    telemetry: &[u8],
    output: &mut [u8],
) -> u32 {
    let sound = WideState::read_frame(state).is_ok() && telemetry_fits(telemetry);
    let number = if sound {
        slipped(fault, form, config, fence, state, telemetry, output)
    } else {
        step_any(form, config, fence, state, telemetry, output)
    };
    let epoch = held_place(EPOCH);
    let wide = kind(state) == Some(frames::STATE_WIDE) && state.len() == WIDE_STATE_FRAME;
    match fault {
        // The epoch's upper half is lost.
        64 if number == 0 && wide => state[epoch + 4..epoch + 8].fill(0),
        // A fault moves the last sound reading.
        65 if number == 0 && sound && output[65] == 1 => {
            put_instant(state, held_place(LAST_NOW), instant(telemetry, 4));
        }
        // Telemetry of kind 3 is taken beside a state of kind 10; and of kind 9 beside one of kind 5.
        67 if number == 2 && wide && kind(telemetry) == Some(TELEMETRY) => return 0,
        68 if number == 2 && kind(state) == Some(STATE) && telemetry_fits(telemetry) => return 0,
        // A state of kind 10 is judged by its length beside kind 11.
        69 if number == 2 && wide && kind(config) == Some(CONFIG_RAISED) => return 3,
        // Of an absent instant only the lower half has to be zero.
        72 if number == 4 && wide && telemetry.len() == WIDE_TELEMETRY_FRAME => {
            let mut taken = telemetry.to_vec();
            for number in 1..TELEMETRY_INSTANTS.len() {
                let at = stamp_place(number);
                if taken[at - 1] == 0 {
                    taken[at + 4..at + 8].fill(0);
                }
            }
            return step_any(form, config, fence, state, &taken, output);
        }
        // The telemetry before the state.
        73 if number == 4 && wide && kind(telemetry) == Some(TELEMETRY) => return 2,
        _ => {}
    }
    number
}

pub fn widen(fault: u32, old: &[u8], t: u64, new: &mut [u8]) -> u32 {
    let before = new.to_vec();
    let number = widen_entry(old, t, new);
    let Ok(held) = State::read_frame(old) else {
        // The old frame may be longer.
        let front = old.get(..186).unwrap_or_default();
        return match fault {
            74 if number == 3 && widen_entry(front, t, new) == 0 => 0,
            _ => number,
        };
    };
    let epoch_age = held.last_now.unwrap_or(0).wrapping_sub(held.epoch_start);
    let epoch_unfit = u64::from(epoch_age) >= HALF || u64::from(epoch_age) > t;
    match (fault, number) {
        // 35 before 34; 5 before 35 or 34; the largest T is none.
        (75, 34) if held.last_now.is_some() => {
            let right = (t & !(WHOLE - 1)) | u64::from(held.last_now.unwrap_or(0));
            let mut room = [0; WIDE_STATE_FRAME];
            if widen_entry(old, right, &mut room) == 35 {
                return 35;
            }
        }
        (76, 34 | 35) if new.len() < WIDE_STATE_FRAME => return NO_ROOM,
        // The epoch is judged as the rest, or becomes 0, or keeps its lower half.
        (77, 0) if epoch_unfit => {
            new.copy_from_slice(&before);
            return 35;
        }
        (78, 0) if epoch_unfit => put_instant(new, held_place(EPOCH), 0),
        (79, 0) if epoch_unfit => {
            put_instant(new, held_place(EPOCH), held.epoch_start.into());
        }
        // A stored sample's stamp that is ahead is carried as it is: ahead.
        (80, 35) => {
            let mut without = held.clone();
            without.glitch.last_accepted = None;
            let mut frame = [0; 186];
            frames::put_frame(STATE, &without, &mut frame);
            return widen_entry(&frame, t, new);
        }
        // last_now is the lower half of T, or its age is asked for too.
        (81, 0) => put_instant(new, held_place(LAST_NOW), t % WHOLE),
        // A byte after the state; only 306 bytes are taken.
        (82, 0) if new.len() > WIDE_STATE_FRAME => new[WIDE_STATE_FRAME] ^= 1,
        (83, 0) if new.len() > WIDE_STATE_FRAME => {
            new.copy_from_slice(&before);
            return NO_ROOM;
        }
        // A refusal that leaves a mark.
        (84, 34 | 35) if !new.is_empty() => new[0] ^= 1,
        // Instants with an age above T become 0.
        (85, 35) => return widened_at(old, t, new),
        // The row of faults starts anew.
        (86, 0) => new[WIDE_STATE_FRAME - 2] = 0,
        // An upper half of 0 is none.
        (87, 0) if t < WHOLE => {
            new.copy_from_slice(&before);
            return 34;
        }
        _ => {}
    }
    number
}

/// With an age above T for an instant of 0.
fn widened_at(old: &[u8], t: u64, new: &mut [u8]) -> u32 {
    let mut later = [0; WIDE_STATE_FRAME];
    if t >= WHOLE || widen_entry(old, t + WHOLE, &mut later) != 0 || new.len() < later.len() {
        return 35;
    }
    for number in 0..STATE_INSTANTS.len() {
        let at = held_place(number);
        if number == EPOCH || later[at - 1] == 1 {
            let then = instant(&later, at).saturating_sub(WHOLE);
            put_instant(&mut later, at, then);
        }
    }
    new[..WIDE_STATE_FRAME].copy_from_slice(&later);
    0
}
