//! States of kind 5 carried over to the 64-bit clock: each held instant at its limits, and states of flights, bent or not.

use flights::{Pilot, damage};
use frames::places::{EPOCH, LAST_NOW, STATE_INSTANTS, instant, put_instant, wide_place};
use frames::{
    CONFIG_RAISED, NO_ROOM, STATE, STATE_FRAME, STATE_RAISED, STATE_WIDE, State, TELEMETRY,
    TELEMETRY_FRAME, WIDE_STATE_FRAME, fresh_entry, fresh_wide_entry, put_frame,
};
use port::Call;
use random::Random;

use crate::clock::{HALF, WHOLE};
use crate::decline::{kind, put16};
use crate::fly::Driver;

/// Puts an instant into a frame of kind 5.
fn put_low(state: &mut [u8], number: usize, value: u32) {
    let at = STATE_INSTANTS[number];
    if number != EPOCH {
        state[at - 1] = 1;
    }
    state[at..at + 4].copy_from_slice(&value.to_le_bytes());
}

fn low(state: &[u8], number: usize) -> u32 {
    let at = STATE_INSTANTS[number];
    u32::from_le_bytes(*state[at..].first_chunk().expect("four bytes"))
}

/// A held instant of this wrapping age at last_now, where T is the last reading: the number, and the instant carried over.
fn due(number: usize, age: u32, t: u64) -> (u32, u64) {
    let fits = u64::from(age) < HALF && u64::from(age) <= t;
    match (fits, number == EPOCH) {
        (true, _) => (0, t - u64::from(age)),
        (_, true) => (0, t),
        _ => (35, 0),
    }
}

impl Driver {
    /// Every held instant alone, at each limit of its age, and T's lower half beside last_now: as document 02 has it.
    pub fn edges(&mut self) -> Result<(), String> {
        let readings = [
            0,
            1,
            5000,
            HALF - 1,
            HALF,
            HALF + 5,
            WHOLE - 1,
            WHOLE,
            WHOLE + 77,
            5 * WHOLE + HALF,
            u64::MAX,
            u64::MAX - 9,
        ];
        for t in readings {
            for number in (0..STATE_INSTANTS.len()).filter(|&number| number != LAST_NOW) {
                let at = t as u32;
                let ages = [0, 1, 4999, 5000, 5001, at, at.wrapping_add(1)];
                let half = HALF as u32;
                for age in ages.into_iter().chain([half - 1, half, half + 1, u32::MAX]) {
                    self.edge(t, number, age)?;
                }
            }
            let mut state = [0; STATE_FRAME];
            fresh_entry(&mut state);
            let mut new = [0x3C; WIDE_STATE_FRAME];
            expect("no last_now", 34, self.sides.widen(&state, t, &mut new)?)?;
            for off in [1, HALF, WHOLE - 1, WHOLE >> 4] {
                put_low(&mut state, LAST_NOW, t.wrapping_add(off) as u32);
                let answer = self.sides.widen(&state, t, &mut new)?;
                expect("another lower half", 34, answer)?;
                assert!(new.iter().all(|&byte| byte == 0x3C), "a byte has changed");
            }
        }
        Ok(())
    }

    fn edge(&mut self, t: u64, number: usize, age: u32) -> Result<(), String> {
        let mut state = [0; STATE_FRAME];
        fresh_entry(&mut state);
        put_low(&mut state, LAST_NOW, t as u32);
        put_low(&mut state, EPOCH, t as u32);
        put_low(&mut state, number, (t as u32).wrapping_sub(age));
        let (answer, then) = due(number, age, t);
        for room in [0, STATE_FRAME, WIDE_STATE_FRAME - 1, WIDE_STATE_FRAME, 320] {
            let mut new = vec![0x3C; room];
            let got = self.sides.widen(&state, t, &mut new)?;
            let wanted = match answer {
                0 if room < WIDE_STATE_FRAME => NO_ROOM,
                other => other,
            };
            expect(&format!("instant {number}, age {age}, T {t}"), wanted, got)?;
            let mut left = vec![0x3C; room];
            if wanted == 0 {
                // All else is that of a fresh state.
                fresh_wide_entry(&mut left);
                put_wide(&mut left, LAST_NOW, t);
                put_wide(&mut left, EPOCH, t);
                put_wide(&mut left, number, then);
            }
            if new != left {
                return Err(format!(
                    "instant {number}, age {age}, T {t}: another state\n"
                ));
            }
            self.carried += 1;
        }
        Ok(())
    }

    /// A flight on the 32-bit clock whose state is carried over again and again, bent or damaged in between.
    pub fn carry(&mut self, steps: usize) -> Result<(), String> {
        let setup = self.setup();
        let mut pilot = Pilot::wide(&mut self.random);
        let mut call = Call {
            config: setup.config.to_vec(),
            fence: setup.fence.clone(),
            state: vec![0; STATE_FRAME],
            ..Call::default()
        };
        self.sides.fresh(&mut call.state)?;
        for _ in 0..steps {
            let held = State::read_frame(&call.state).expect("a state of kind 5");
            let t = pilot.next(&mut self.random, &setup, &held);
            call.telemetry = vec![0; TELEMETRY_FRAME];
            put_frame(TELEMETRY, &t, &mut call.telemetry);
            self.equip(&mut call, None);
            let number = self.sides.step_wide(&mut call)?;
            assert_eq!(number, 0, "a step of a flight is declined");
            for _ in 0..2 {
                self.carry_one(&call.state)?;
            }
        }
        Ok(())
    }

    fn carry_one(&mut self, state: &[u8]) -> Result<(), String> {
        let random = &mut self.random;
        let mut old = state.to_vec();
        let any = random.u32();
        let upper = u64::from(random.one_of(&[0, 0, 1, 2, u32::MAX, any]));
        let last = low(&old, LAST_NOW);
        let mut t = upper << 32 | u64::from(last);
        if random.chance(2) {
            bend_low(random, &mut old, t);
        }
        match random.below(12) {
            0 => t = t.wrapping_add(random.one_of(&[1, u64::MAX, HALF, 1 << 20])),
            1 => put_low(&mut old, LAST_NOW, random.u32()),
            2 => old[STATE_INSTANTS[LAST_NOW] - 1..][..5].fill(0),
            3 | 4 => damage(random, &mut old),
            5 => {
                let kinds = [3, STATE_WIDE, CONFIG_RAISED, STATE_RAISED, 261, 0x0500];
                put16(&mut old, 2, random.one_of(&kinds));
            }
            6 => {
                // A state of another kind, whole.
                let (len, kind) =
                    random.one_of(&[(194, STATE_RAISED), (306, STATE_WIDE), (306, STATE)]);
                old.resize(len, 0);
                put16(&mut old, 0, len as u16 - 2);
                put16(&mut old, 2, kind);
            }
            7 => {
                let at = random.one_of(&[132, 133, 134, 184, 185, 4, 126, 6]);
                old[at] = random.one_of(&[2, 4, 19, 255]);
            }
            _ => {}
        }
        let any = random.below(400);
        let room = random.one_of(&[306, 306, 306, 305, 307, 350, 0, 186, any]);
        let mut new: Vec<u8> = (0..room).map(|k| k as u8 ^ 0xC3).collect();
        let number = self.sides.widen(&old, t, &mut new)?;
        self.carried += 1;
        let what = match number {
            0 if instant(&new, wide_place(&STATE_INSTANTS, EPOCH)) == t => "the epoch at T",
            0 => "the epoch kept",
            34 if State::read_frame(&old).is_ok_and(|old| old.last_now.is_none()) => "no last_now",
            34 => "another lower half",
            2 if kind(&old) == Some(STATE_WIDE) => "kind 10",
            2 if kind(&old) == Some(STATE_RAISED) => "kind 12",
            _ => "",
        };
        self.counts.add("carried over", format!("{number} {what}"));
        Ok(())
    }

    pub fn missing_carried(&self) -> Vec<String> {
        let wanted = [
            "0 the epoch at T",
            "0 the epoch kept",
            "1 ",
            "2 ",
            "2 kind 10",
            "2 kind 12",
            "3 ",
            "4 ",
            "34 no last_now",
            "34 another lower half",
            "35 ",
            "5 ",
        ];
        self.counts.missing("carried over", &wanted)
    }
}

fn put_wide(state: &mut [u8], number: usize, value: u64) {
    let at = wide_place(&STATE_INSTANTS, number);
    if number != EPOCH {
        state[at - 1] = 1;
    }
    put_instant(state, at, value);
}

/// Some held instants at the limits of their ages, or absent.
fn bend_low(random: &mut Random, old: &mut [u8], t: u64) {
    let last = low(old, LAST_NOW);
    for _ in 0..random.one_of(&[1, 1, 2, 20]) {
        let any = random.below(LAST_NOW);
        let number = random.one_of(&[any, any, EPOCH]);
        let half = HALF as u32;
        let at_t = t.min(u64::from(u32::MAX)) as u32;
        let ages = [
            0,
            1,
            half - 1,
            half - 1,
            half,
            u32::MAX,
            at_t,
            at_t.wrapping_add(1),
        ];
        let age = random.one_of(&ages);
        if random.chance(5) && number != EPOCH && number != 27 {
            let at = STATE_INSTANTS[number];
            old[at - 1..at + 4].fill(0);
        } else {
            put_low(old, number, last.wrapping_sub(age));
        }
    }
}

fn expect(what: &str, wanted: u32, answer: u32) -> Result<(), String> {
    if wanted == answer {
        return Ok(());
    }
    Err(format!("{what}: {answer}, where {wanted} is due\n"))
}
