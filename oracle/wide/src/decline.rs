//! Calls beside a flight: with one fault or several, and from states that no flight left.

use failsafe_open::Config;
use flights::{break_areas, break_config, break_fence, damage, once_round, star};
use frames::places::{
    EPOCH, LAST_NOW, STATE_INSTANTS, TELEMETRY_INSTANTS, instant, narrowed, put_instant, wide_byte,
    wide_place,
};
use frames::{
    CONFIG, CONFIG_RAISED, RaisedState, STATE, STATE_RAISED, STATE_WIDE, State, TELEMETRY,
    TELEMETRY_WIDE, WIDE_STATE_FRAME, WIDE_TELEMETRY_FRAME, WideState, check_entry, read_areas,
    read_fence, read_frame,
};
use port::{Call, Entry};
use random::Random;

use crate::clock::{HALF, WHOLE};
use crate::fly::Driver;

pub fn put16(frame: &mut [u8], at: usize, value: u16) {
    if let Some(to) = frame.get_mut(at..at + 2) {
        to.copy_from_slice(&value.to_le_bytes());
    }
}

pub fn kind(frame: &[u8]) -> Option<u16> {
    Some(u16::from_le_bytes([*frame.get(2)?, *frame.get(3)?]))
}

/// A frame of kind 9 or 10 as one of kind 3 or 5, where it is whole.
fn narrow(frame: &mut Vec<u8>) {
    let whole = match kind(frame) {
        Some(TELEMETRY_WIDE) => WIDE_TELEMETRY_FRAME,
        Some(STATE_WIDE) => WIDE_STATE_FRAME,
        _ => return,
    };
    if frame.len() == whole {
        *frame = narrowed(frame);
    }
}

/// Kinds that are not due beside the rest, with their own lengths or not.
fn mix_kinds(random: &mut Random, call: &mut Call) {
    let odd = [0, 3, 5, 9, 10, 11, 12, 265, 266, 0x0900, 0x0A00];
    match random.below(10) {
        0 | 1 => narrow(&mut call.telemetry),
        2 | 3 => narrow(&mut call.state),
        4 => {
            // A sound call on the 32-bit clock, where nothing else is wrong.
            narrow(&mut call.state);
            narrow(&mut call.telemetry);
        }
        5 => put16(&mut call.config, 2, CONFIG_RAISED),
        6 => {
            put16(&mut call.config, 2, CONFIG_RAISED);
            narrow(&mut call.state);
            call.state.resize(194, 0);
            put16(&mut call.state, 0, 192);
            put16(&mut call.state, 2, STATE_RAISED);
        }
        7 => put16(&mut call.state, 2, random.one_of(&odd)),
        8 => put16(&mut call.telemetry, 2, random.one_of(&odd)),
        _ => {
            // A frame of the other clock's length.
            let kind = random.one_of(&[STATE, STATE_WIDE]);
            let len = random.one_of(&[186, 194, 305, 306, 307]);
            call.state.resize(len, 0);
            put16(&mut call.state, 0, len as u16 - 2);
            put16(&mut call.state, 2, kind);
        }
    }
}

/// An absent instant whose upper or lower half is not zero.
fn break_absent(random: &mut Random, frame: &mut [u8]) {
    let at = match kind(frame) {
        Some(STATE_WIDE) if frame.len() == WIDE_STATE_FRAME => {
            wide_place(&STATE_INSTANTS, random.below(EPOCH))
        }
        Some(TELEMETRY_WIDE) if frame.len() == WIDE_TELEMETRY_FRAME => {
            wide_place(&TELEMETRY_INSTANTS, 1 + random.below(10))
        }
        _ => return,
    };
    if random.chance(4) {
        frame[at - 1] = 0;
    }
    if frame[at - 1] == 0 {
        frame[at + random.below(8)] = random.one_of(&[1, 2, 128, 255]);
    }
}

/// One of the state's own rules, or a flag.
fn break_state(random: &mut Random, state: &mut [u8]) {
    if kind(state) != Some(STATE_WIDE) || state.len() != WIDE_STATE_FRAME {
        return;
    }
    let (at, bytes): (usize, &[u8]) = random.one_of(&[
        (132, &[4, 255][..]),
        (184, &[3, 255][..]),
        (133, &[5, 255][..]),
        (134, &[19, 255][..]),
        (185, &[2, 255][..]),
        (4, &[2, 255][..]),
        (126, &[2, 255][..]),
        (175, &[2, 255][..]),
        (6, &[2, 255][..]),
        (173, &[0x7F, 0xFF][..]),
    ]);
    if at == 173 {
        // The last number of the stored velocity.
        let at = wide_byte(&STATE_INSTANTS, 145);
        state[at] = 1;
        state[wide_byte(&STATE_INSTANTS, 172)] = 0x80;
    }
    state[wide_byte(&STATE_INSTANTS, at)] = random.one_of(bytes);
}

fn fault(random: &mut Random, call: &mut Call) {
    match random.below(20) {
        0 => damage(random, &mut call.config),
        1 => damage(random, &mut call.fence),
        2 | 3 => damage(random, &mut call.state),
        4 | 5 => damage(random, &mut call.telemetry),
        6 => call.output.truncate(random.below(97)),
        7 => call.fence = break_fence(random),
        8 => call.fence = once_round(star(random)),
        9 | 10 => {
            if let Ok(config) = call.config.as_mut_slice().try_into() {
                break_config(random, config);
            }
        }
        11 => break_state(random, &mut call.state),
        12 => break_absent(random, &mut call.state),
        13 => break_absent(random, &mut call.telemetry),
        14 => call.state.truncate(random.below(WIDE_STATE_FRAME)),
        15 => {
            call.entry = Entry::Areas;
            call.areas = break_areas(random, &[]);
        }
        16 => std::mem::swap(&mut call.telemetry, &mut call.state),
        _ => mix_kinds(random, call),
    }
}

impl Driver {
    /// A call beside the flight with one fault or several, mostly declined.
    pub fn decline(&mut self, sound: &Call) -> Result<(), String> {
        let mut call = sound.clone();
        let faults = 1 + self.random.below(3);
        for _ in 0..faults {
            fault(&mut self.random, &mut call);
        }
        self.merge(sound)?;
        let given = call.clone();
        let number = self.sides.step_wide(&mut call)?;
        if number != 0 {
            self.declined += 1;
            self.several += (faults > 1) as u64;
        }
        self.counts
            .add("number", format!("{number} {}", part(&given, number)));
        Ok(())
    }

    /// Two radios on the 64-bit clock are not merged: kind 9 is not the kind due, in either place.
    fn merge(&mut self, sound: &Call) -> Result<(), String> {
        if !self.random.chance(10) {
            return Ok(());
        }
        let (wide, narrow) = (&sound.telemetry, &narrowed(&sound.telemetry));
        for (first, second) in [(wide, wide), (wide, narrow), (narrow, wide)] {
            let mut output = [0x77; 160];
            let number = port::merge(&sound.config, &sound.fence, first, second, &mut output);
            if number.is_some_and(|number| number != 2) || output != [0x77; 160] {
                return Err(format!("failsafe_merge with kind 9 answers {number:?}\n"));
            }
        }
        self.counts.add("merge", "kind 9");
        Ok(())
    }

    /// Two steps from a state that no flight may have reached.
    pub fn odd_state(&mut self, sound: &Call) -> Result<(), String> {
        let random = &mut self.random;
        let mut call = sound.clone();
        let now = instant(&call.telemetry, 4);
        let times = random.one_of(&[1, 3, 12, 100]);
        for _ in 0..times {
            bend(random, &mut call.state, now);
        }
        for _ in 0..2 {
            let given = call.clone();
            let number = self.sides.step_wide(&mut call)?;
            self.odd_states += (number == 0) as u64;
            self.counts
                .add("number", format!("{number} {}", part(&given, number)));
        }
        Ok(())
    }

    /// The numbers that have to be met, each with the buffer that it is about.
    pub fn missing_numbers(&self) -> Vec<String> {
        let mut wanted: Vec<String> = Vec::new();
        for part in ["configuration", "state", "telemetry"] {
            wanted.extend((1..5).map(|number| format!("{number} {part}")));
        }
        for part in ["fence", "areas"] {
            wanted.extend((1..4).map(|number| format!("{number} {part}")));
        }
        let rules = (10..19).chain([33]);
        wanted.extend(rules.map(|number| format!("{number} fence rules")));
        wanted.extend((20..29).map(|number| format!("{number} configuration rules")));
        for rest in [
            "5 output",
            "2 kind 3 beside kind 10",
            "2 kind 9 beside kind 5",
            "2 kind 10 beside kind 11",
            "2 kind 9 beside kind 12",
            "0 on the 32-bit clock",
            "0 under kind 11",
            "0 ",
        ] {
            wanted.push(rest.into());
        }
        let wanted: Vec<&str> = wanted.iter().map(String::as_str).collect();
        let mut missing = self.counts.missing("number", &wanted);
        missing.extend(self.counts.missing("merge", &["kind 9"]));
        missing
    }
}

/// Instants, flags and small numbers of the state put elsewhere.
fn bend(random: &mut Random, state: &mut [u8], now: u64) {
    let any = random.word();
    let ms = random.one_of(&[
        now,
        now.saturating_sub(5000),
        now.saturating_sub(1),
        now.saturating_add(1),
        0,
        u64::MAX,
        now ^ HALF,
        now ^ WHOLE,
        now.saturating_sub(HALF),
        now.saturating_sub(WHOLE - 1),
        now.saturating_sub(WHOLE),
        now.saturating_sub(WHOLE + 1500),
        any,
    ]);
    let number = random.below(STATE_INSTANTS.len());
    let at = wide_place(&STATE_INSTANTS, number);
    match random.below(8) {
        0..=4 if number == EPOCH => put_instant(state, at, ms),
        0..=4 => {
            state[at - 1] = 1;
            put_instant(state, at, ms);
        }
        5 if number < LAST_NOW && number != 27 => state[at - 1..at + 8].fill(0),
        _ => {
            let byte = random.one_of(&[4, 5, 126, 132, 133, 134, 174, 184, 185]);
            let most = random.one_of(&[1, 2, 3, 4, 5]);
            state[wide_byte(&STATE_INSTANTS, byte)] = random.below(most) as u8;
        }
    }
}

/// What the number is about.
fn part(call: &Call, number: u32) -> &'static str {
    let raised = kind(&call.config) == Some(CONFIG_RAISED);
    let due = if raised { CONFIG_RAISED } else { CONFIG };
    let wide = kind(&call.state) == Some(STATE_WIDE);
    let state_fits = match (raised, wide) {
        (true, _) => RaisedState::read_frame(&call.state).is_ok(),
        (_, true) => WideState::read_frame(&call.state).is_ok(),
        _ => State::read_frame(&call.state).is_ok(),
    };
    if number == 0 {
        return match (raised, wide) {
            (true, _) => "under kind 11",
            (_, true) => "",
            _ => "on the 32-bit clock",
        };
    }
    if read_frame::<Config>(due, &call.config).is_err() {
        "configuration"
    } else if read_fence(&call.fence).is_err() {
        "fence"
    } else if (20..30).contains(&number) {
        "configuration rules"
    } else if number >= 10 && check_entry(&call.config, &call.fence) == number {
        "fence rules"
    } else if call.entry == Entry::Areas && read_areas(&call.areas).is_err() {
        "areas"
    } else if number == 2 && raised && WideState::read_frame(&call.state).is_ok() {
        "kind 10 beside kind 11"
    } else if !state_fits {
        "state"
    } else if number == 5 {
        "output"
    } else if number == 2 && wide && kind(&call.telemetry) == Some(TELEMETRY) {
        "kind 3 beside kind 10"
    } else if number == 2 && kind(&call.telemetry) == Some(TELEMETRY_WIDE) {
        if raised {
            "kind 9 beside kind 12"
        } else {
            "kind 9 beside kind 5"
        }
    } else {
        "telemetry"
    }
}
