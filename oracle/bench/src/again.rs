//! A frame read and its value written anew, by the port (crates/frames_c) and by the plain `from_le_bytes` readers and
//! writers of `oracle/frames`, on the same bytes.

use std::hint::black_box;

use failsafe_core::{Config, Decision, Telemetry};
use flights::Both;
use frames::{
    CONFIG, CONFIG_FRAME, DECISION, DECISION_FRAME, Field, STATE, STATE_FRAME, State, TELEMETRY,
    TELEMETRY_FRAME, read_frame, write_frame,
};

use crate::{Flight, clock, ratio, summary, tell};

const ROUNDS: usize = 61;
/// Calls in a round, of one frame or of many: enough that reading the clock costs a call nothing.
const CALLS: usize = 8000;

type Entry = unsafe extern "C" fn(*const u8, usize, *mut u8, usize) -> u32;

unsafe extern "C" {
    fn config_again(frame: *const u8, len: usize, to: *mut u8, to_len: usize) -> u32;
    fn telemetry_again(frame: *const u8, len: usize, to: *mut u8, to_len: usize) -> u32;
    fn decision_again(frame: *const u8, len: usize, to: *mut u8, to_len: usize) -> u32;
    fn state_again(frame: *const u8, len: usize, to: *mut u8, to_len: usize) -> u32;
}

fn ported(entry: Entry, frame: &[u8], to: &mut [u8]) -> u32 {
    // SAFETY: two slices that are alive and do not overlap.
    unsafe { entry(frame.as_ptr(), frame.len(), to.as_mut_ptr(), to.len()) }
}

fn number(result: Result<(), u32>) -> u32 {
    match result {
        Ok(()) => 0,
        Err(number) => number,
    }
}

#[inline(never)]
fn plain<T: Field>(kind: u16, frame: &[u8], to: &mut [u8]) -> u32 {
    number(read_frame::<T>(kind, frame).and_then(|value| write_frame(kind, &value, to)))
}

#[inline(never)]
fn plain_state(frame: &[u8], to: &mut [u8]) -> u32 {
    number(State::read_frame(frame).and_then(|state| write_frame(STATE, &state, to)))
}

/// Nanoseconds a frame, of all frames one after the other.
fn time<const N: usize>(frames: &[[u8; N]], again: &dyn Fn(&[u8], &mut [u8]) -> u32) -> f64 {
    let mut to = [0; N];
    let turns = CALLS / frames.len();
    let all = || {
        for _ in 0..turns {
            for frame in frames {
                assert_eq!(again(black_box(frame), &mut to), 0);
                black_box(&to);
            }
        }
    };
    clock::ns(all) / (turns * frames.len()) as f64
}

fn compare<const N: usize>(
    name: &str,
    frames: &[[u8; N]],
    entry: Entry,
    rust: &dyn Fn(&[u8], &mut [u8]) -> u32,
) {
    let port = |frame: &[u8], to: &mut [u8]| ported(entry, frame, to);
    for frame in frames {
        let (mut ours, mut theirs) = ([0; N], [0; N]);
        assert_eq!(port(frame, &mut ours), rust(frame, &mut theirs));
        assert!(ours == theirs, "{name} is written in two ways");
    }
    let (mut first, mut second) = (Vec::new(), Vec::new());
    for round in 0..ROUNDS + 1 {
        let (a, b) = (time(frames, &port), time(frames, rust));
        // The first round warms up.
        if round > 0 {
            first.push(a);
            second.push(b);
        }
    }
    let (port, rust) = (summary(first), summary(second));
    tell(name, port, 1);
    tell("  the Rust", rust, 1);
    tell("  ratio", ratio(port, rust), 3);
}

pub fn again(flight: &Flight) {
    let setup = &flight.setup;
    let mut both = Both::new(&setup.config, &setup.fence).expect("an accepted configuration");
    let mut decisions: Vec<[u8; DECISION_FRAME]> = Vec::new();
    let mut states: Vec<[u8; STATE_FRAME]> = Vec::new();
    for frame in &flight.frames {
        decisions.push(both.step(frame));
        states.push(both.state_frame());
    }
    let config: [u8; CONFIG_FRAME] = setup.config;
    let telemetry: &[[u8; TELEMETRY_FRAME]] = &flight.frames;
    println!("frames, read and written anew: ns; median and least of {ROUNDS} rounds");
    compare("Config", &[config], config_again, &|frame, to| {
        plain::<Config>(CONFIG, frame, to)
    });
    compare("Telemetry", telemetry, telemetry_again, &|frame, to| {
        plain::<Telemetry>(TELEMETRY, frame, to)
    });
    compare("Decision", &decisions, decision_again, &|frame, to| {
        plain::<Decision>(DECISION, frame, to)
    });
    compare("state", &states, state_again, &plain_state);
}
