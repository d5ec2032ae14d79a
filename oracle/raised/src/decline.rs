//! Calls beside a flight: with one fault or several, and from states that no flight left.

use failsafe_open::{Config, Telemetry};
use flights::{break_areas, break_config, break_fence, damage, once_round, star};
use frames::{
    CONFIG, CONFIG_RAISED, RAISED_STATE_FRAME, RaisedState, STATE, STATE_FRAME, STATE_RAISED,
    State, TELEMETRY, TELEMETRY_FRAME, check_entry, read_fence, read_frame,
};
use port::{Call, Entry};
use random::Random;

use crate::fly::Driver;

fn put16(frame: &mut [u8], at: usize, value: u16) {
    if let Some(to) = frame.get_mut(at..at + 2) {
        to.copy_from_slice(&value.to_le_bytes());
    }
}

/// The state's first 186 bytes as a frame of kind 5.
fn kind_five(state: &mut Vec<u8>) {
    state.truncate(STATE_FRAME);
    put16(state, 0, STATE_FRAME as u16 - 2);
    put16(state, 2, STATE);
}

/// Kinds that are not due beside the rest, with their own lengths or not.
fn mix_kinds(random: &mut Random, call: &mut Call) {
    let odd = [0, 2, 3, 5, 9, 10, 12, 13, 255, 267, 0x0B00];
    match random.below(8) {
        0 => kind_five(&mut call.state),
        1 => put16(&mut call.config, 2, CONFIG),
        2 => {
            // A sound call of kinds 1 and 5, where nothing else is wrong.
            put16(&mut call.config, 2, CONFIG);
            kind_five(&mut call.state);
        }
        3 => put16(&mut call.config, 2, random.one_of(&odd)),
        4 => put16(
            &mut call.state,
            2,
            random.one_of(&[0, 5, 10, 11, 13, 268, 0x0C00]),
        ),
        5 => {
            // As long as a state of kind 10.
            call.state.resize(306, 0);
            put16(&mut call.state, 0, 304);
            put16(&mut call.state, 2, random.one_of(&[10, STATE_RAISED]));
        }
        6 => put16(&mut call.telemetry, 2, random.one_of(&[9, 11, 12])),
        _ => {
            // A frame of kind 5 that fills the slice, and one of kind 12 that is too short.
            let kind = random.one_of(&[STATE, STATE_RAISED]);
            let len = random.one_of(&[STATE_FRAME, 193, 195]);
            call.state.resize(len, 0);
            put16(&mut call.state, 0, len as u16 - 2);
            put16(&mut call.state, 2, kind);
        }
    }
}

/// One of the eight bytes above 1.
fn break_flag(random: &mut Random, state: &mut [u8]) {
    if let Some(byte) = state.get_mut(STATE_FRAME + random.below(8)) {
        *byte = random.one_of(&[2, 3, 128, 255]);
    }
}

fn fault(random: &mut Random, call: &mut Call) {
    match random.below(18) {
        0 => damage(random, &mut call.config),
        1 => damage(random, &mut call.fence),
        2 | 3 => damage(random, &mut call.state),
        4 | 5 => damage(random, &mut call.telemetry),
        6 => call.output.truncate(random.below(97)),
        7 => call.fence = break_fence(random),
        8 => call.fence = once_round(star(random)),
        9 | 10 => {
            if let Ok(config) = call.config.as_mut_slice().try_into() {
                break_config(random, config);
            }
        }
        11 | 12 => break_flag(random, &mut call.state),
        13 => call.state.truncate(random.below(RAISED_STATE_FRAME)),
        14 => {
            call.entry = Entry::Areas;
            call.areas = break_areas(random, &[]);
        }
        15 => std::mem::swap(&mut call.telemetry, &mut call.state),
        _ => mix_kinds(random, call),
    }
}

impl Driver {
    /// A call beside the flight with one fault or several, mostly declined.
    pub fn decline(&mut self, sound: &Call) -> Result<(), String> {
        let mut call = sound.clone();
        let faults = 1 + self.random.below(3);
        for _ in 0..faults {
            fault(&mut self.random, &mut call);
        }
        let given = call.clone();
        self.check(&given)?;
        self.merge(&given, sound)?;
        let number = self.sides.step_raised(&mut call)?;
        if number != 0 {
            self.declined += 1;
            self.several += (faults > 1) as u64;
        }
        self.counts
            .add("number", format!("{number} {}", part(&given, number)));
        Ok(())
    }

    /// `failsafe_check` answers what a step does of configuration and fence.
    fn check(&mut self, call: &Call) -> Result<(), String> {
        let due = check_entry(&call.config, &call.fence);
        match port::check(&call.config, &call.fence) {
            Some(number) if number != due => Err(format!(
                "failsafe_check answers {number}, and the Rust {due}\n"
            )),
            _ => Ok(()),
        }
    }

    /// `failsafe_merge` answers and writes under kind 11 what it does under kind 1.
    fn merge(&mut self, call: &Call, sound: &Call) -> Result<(), String> {
        let mut config = call.config.clone();
        if config.get(2..4) != Some(&CONFIG_RAISED.to_le_bytes()) {
            return Ok(());
        }
        let room = self
            .random
            .one_of(&[TELEMETRY_FRAME - 1, TELEMETRY_FRAME, 150]);
        let merged = |config: &[u8]| {
            let mut output = vec![0x77; room];
            let (first, second) = (&call.telemetry, &sound.telemetry);
            let number = port::merge(config, &call.fence, first, second, &mut output);
            (number, output)
        };
        let eleven = merged(&config);
        put16(&mut config, 2, CONFIG);
        let one = merged(&config);
        if eleven != one {
            return Err(format!(
                "failsafe_merge answers {:?} under kind 11, {:?} under kind 1\n",
                eleven.0, one.0
            ));
        }
        if let Some(number) = eleven.0 {
            self.counts.add("merge", number);
        }
        Ok(())
    }

    /// Two steps from a state that no flight may have reached.
    pub fn odd_state(&mut self, sound: &Call) -> Result<(), String> {
        let random = &mut self.random;
        let mut call = sound.clone();
        let now: Telemetry = read_frame(TELEMETRY, &call.telemetry).expect("telemetry");
        for _ in 0..1 + random.below(12) {
            bend(random, &mut call.state, now.now_ms);
        }
        for _ in 0..2 {
            let given = call.clone();
            let number = self.sides.step_raised(&mut call)?;
            self.odd_states += (number == 0) as u64;
            self.counts
                .add("number", format!("{number} {}", part(&given, number)));
        }
        Ok(())
    }

    /// The numbers that have to be met, each with the buffer that it is about.
    pub fn missing_numbers(&self) -> Vec<String> {
        let mut wanted: Vec<String> = Vec::new();
        for part in ["configuration", "state", "telemetry"] {
            wanted.extend((1..5).map(|number| format!("{number} {part}")));
        }
        for part in ["fence", "areas"] {
            wanted.extend((1..4).map(|number| format!("{number} {part}")));
        }
        wanted.extend(
            (10..19)
                .chain([33])
                .map(|number| format!("{number} fence rules")),
        );
        wanted.extend((20..29).map(|number| format!("{number} configuration rules")));
        for rest in [
            "5 output",
            "2 kind 5 beside kind 11",
            "2 kind 12 beside kind 1",
            "4 raised",
            "0 ",
        ] {
            wanted.push(rest.into());
        }
        let wanted: Vec<&str> = wanted.iter().map(String::as_str).collect();
        let mut missing = self.counts.missing("number", &wanted);
        // The stand-in does not merge.
        if cfg!(not(feature = "standin")) {
            missing.extend(
                self.counts
                    .missing("merge", &["0", "1", "2", "3", "4", "5", "25"]),
            );
        }
        missing
    }
}

/// Timers, instants and flags of the state put elsewhere.
fn bend(random: &mut Random, state: &mut [u8], now: u32) {
    let ms = random.one_of(&[
        now,
        now.wrapping_sub(5000),
        now.wrapping_sub(1),
        now.wrapping_add(1),
        0,
        now ^ (1 << 31),
    ]);
    // The 25 timers, the recovery's start, the disarm hold and the last reading.
    let at = match random.below(28) {
        24 => 127,
        25 => 135,
        26 => 140,
        27 => 175,
        timer => 6 + 5 * timer,
    };
    match random.below(10) {
        0..=3 => {
            state[at] = 1;
            state[at + 1..at + 5].copy_from_slice(&ms.to_le_bytes());
        }
        4 => state[at..at + 5].fill(0),
        5..=7 => state[STATE_FRAME + random.below(8)] ^= 1,
        8 => state[STATE_FRAME..].fill(random.below(2) as u8),
        _ => {
            let byte = random.one_of(&[4, 5, 126, 132, 133, 134, 184, 185]);
            state[byte] = random.below(5) as u8;
        }
    }
}

/// What the number is about.
fn part(call: &Call, number: u32) -> &'static str {
    let kind = |frame: &[u8]| frame.get(2).copied().unwrap_or(0) as u16;
    let (config, state) = (kind(&call.config), kind(&call.state));
    let due = if config == CONFIG_RAISED {
        CONFIG_RAISED
    } else {
        CONFIG
    };
    if number == 0 {
        ""
    } else if read_frame::<Config>(due, &call.config).is_err() {
        "configuration"
    } else if read_fence(&call.fence).is_err() {
        "fence"
    } else if (20..30).contains(&number) {
        "configuration rules"
    } else if number >= 10 && check_entry(&call.config, &call.fence) == number {
        "fence rules"
    } else if call.entry == Entry::Areas && frames::read_areas(&call.areas).is_err() {
        "areas"
    } else if number == 2 && due == CONFIG_RAISED && state == STATE {
        "kind 5 beside kind 11"
    } else if number == 2 && due == CONFIG && RaisedState::read_frame(&call.state).is_ok() {
        "kind 12 beside kind 1"
    } else if number == 4 && raised_alone(&call.state) {
        "raised"
    } else if due == CONFIG_RAISED && RaisedState::read_frame(&call.state).is_err()
        || due == CONFIG && State::read_frame(&call.state).is_err()
    {
        "state"
    } else if number == 5 {
        "output"
    } else {
        "telemetry"
    }
}

/// Whether nothing but one of the eight bytes is wrong with a state of kind 12.
fn raised_alone(state: &[u8]) -> bool {
    let mut mended = state.to_vec();
    if let Some(bytes) = mended.get_mut(STATE_FRAME..) {
        bytes.fill(0);
    }
    RaisedState::read_frame(state).is_err() && RaisedState::read_frame(&mended).is_ok()
}
