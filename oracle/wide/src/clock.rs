//! Readings and stamps of 64 bits about those that the 32-bit pilot picks: across 2^31 and 2^32 and far beyond, back and ahead.

use failsafe_open::Telemetry;
use flights::{Setup, holds};
use frames::places::{LAST_NOW, STATE_INSTANTS, instant, wide_place, widened_telemetry};
use frames::{State, TELEMETRY, TELEMETRY_FRAME, put_frame};
use random::Random;

pub const HALF: u64 = 1 << 31;
pub const WHOLE: u64 = 1 << 32;

/// The last sound reading of a state of kind 10.
pub fn last_now(state: &[u8]) -> u64 {
    instant(state, wide_place(&STATE_INSTANTS, LAST_NOW))
}

/// The pilot's reading in 64 bits: as far from the last one as in 32, or further. A flight begins anywhere.
pub fn reading(random: &mut Random, setup: &Setup, state: &[u8], narrow: &State, now: u32) -> u64 {
    let Some(low) = narrow.last_now else {
        let upper = [0, 0, 0, 1, 2, 1 << 8, 1 << 31, u32::MAX - 300, random.u32()];
        return u64::from(random.one_of(&upper)) << 32 | u64::from(now);
    };
    let last = last_now(state);
    if random.chance(4)
        && let Some(end) = seek(random, setup, state, narrow, last)
    {
        return end;
    }
    let far = [
        HALF - 1,
        HALF,
        HALF + 1,
        WHOLE - 1,
        WHOLE,
        WHOLE + 1,
        WHOLE + 2000,
        3 * WHOLE,
        1 << 40,
    ];
    match random.below(200) {
        0..=4 => last.saturating_add(random.one_of(&far)),
        5 | 6 => last.saturating_sub(random.one_of(&far)),
        7 if random.chance(40) => random.one_of(&[0, u64::MAX, u64::MAX - 1, HALF, WHOLE]),
        _ => last.saturating_add_signed(i64::from(now.wrapping_sub(low) as i32)),
    }
}

/// The end of a pending hold, or a reading beside it, where that is ahead: mostly one that is 2^31 or more after its start.
fn seek(
    random: &mut Random,
    setup: &Setup,
    state: &[u8],
    narrow: &State,
    last: u64,
) -> Option<u64> {
    let mut ends = Vec::new();
    for (number, hold) in by_place(setup, narrow) {
        if hold.since_ms.is_some() {
            let since = instant(state, wide_place(&STATE_INSTANTS, number));
            let end = since.checked_add(hold.limit_ms.into())?;
            if end > last && (u64::from(hold.limit_ms) >= HALF || random.chance(10)) {
                ends.push(end);
            }
        }
    }
    if ends.is_empty() {
        return None;
    }
    let end = random.one_of(&ends);
    Some(end.saturating_add(random.below(3) as u64).max(1) - 1)
}

/// Every hold with the number of its instant in the state.
pub fn by_place(setup: &Setup, narrow: &State) -> impl Iterator<Item = (usize, flights::Hold)> {
    // rc_lost_set stands third in the list, and last of the timers in the state.
    let place = |k: usize| match k {
        2 => 24,
        3..25 => k - 1,
        _ => k,
    };
    let all = holds(narrow, &setup.cfg).into_iter().enumerate();
    all.map(move |(k, hold)| (place(k), hold))
}

/// The pilot's telemetry at that reading, each stamp as old as in 32 bits or much older, or ahead.
pub fn telemetry(random: &mut Random, t: &Telemetry, now: u64) -> Vec<u8> {
    let mut frame = [0; TELEMETRY_FRAME];
    put_frame(TELEMETRY, t, &mut frame);
    widened_telemetry(&frame, |number, low| {
        if number == 0 {
            return now;
        }
        let age = u64::from(t.now_ms.wrapping_sub(low));
        let older = [
            age,
            HALF - 1,
            HALF,
            HALF + 1,
            WHOLE - 1,
            WHOLE,
            WHOLE + 1,
            WHOLE + age,
            3 * WHOLE + age,
            now,
        ];
        if random.chance(40) {
            return now.saturating_sub(random.one_of(&older));
        }
        if random.chance(60) {
            let ahead = [1, 2, age + 1, HALF - 1, HALF, WHOLE, WHOLE + 1, u64::MAX];
            return now.saturating_add(random.one_of(&ahead));
        }
        if age >= HALF && random.chance(2) {
            return now.saturating_add(WHOLE - age);
        }
        now.saturating_sub(age)
    })
}
