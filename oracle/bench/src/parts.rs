//! Where the plain Rust entry's time goes: its parts one by one, on a flight's frames.

use std::hint::black_box;

use failsafe_core::{Config, Telemetry};
use flights::Both;
use frames::{
    CONFIG, DECISION, DECISION_FRAME, STATE, STATE_FRAME, State, TELEMETRY, fence_core, put_frame,
    read_fence, read_frame,
};

use crate::{Flight, clock, summary, tell};

const ROUNDS: usize = 61;
const TURNS: usize = 2000;

/// Times a part, in rounds.
fn time(name: &str, part: impl Fn()) {
    let round = || {
        let all = || {
            for _ in 0..TURNS {
                part();
            }
        };
        clock::ns(all) / TURNS as f64
    };
    round();
    tell(name, summary((0..ROUNDS).map(|_| round()).collect()), 1);
}

pub fn parts(flight: &Flight) {
    let setup = &flight.setup;
    let mut both = Both::new(&setup.config, &setup.fence).expect("an accepted configuration");
    let mut output = [0; DECISION_FRAME];
    // Some way into the flight, so that timers are pending.
    for frame in &flight.frames[..50] {
        output = both.step(frame);
    }
    let (state, telemetry) = (both.state_frame(), &flight.frames[50]);
    let cfg: Config = read_frame(CONFIG, &setup.config).expect("a configuration");
    let fence = fence_core(&read_fence(&setup.fence).expect("a fence")).expect("a fence");
    let held = State::read_frame(&state).expect("a state");
    let decision: failsafe_core::Decision = read_frame(DECISION, &output).expect("a Decision");
    println!("parts of the plain Rust entry: ns; median and least of {ROUNDS} rounds");
    time("read Config", || {
        let _ = black_box(read_frame::<Config>(CONFIG, black_box(&setup.config)));
    });
    time("read fence, fence rules", || {
        let sent = read_fence(black_box(&setup.fence)).expect("a fence");
        let _ = black_box(fence_core(&sent));
    });
    time("validate_config", || {
        let _ = black_box(failsafe_core::validate_config(
            black_box(&cfg),
            black_box(&fence),
        ));
    });
    time("read state", || {
        let _ = black_box(State::read_frame(black_box(&state)));
    });
    time("read Telemetry", || {
        let _ = black_box(read_frame::<Telemetry>(TELEMETRY, black_box(telemetry)));
    });
    time("write state", || {
        let mut to = [0; STATE_FRAME];
        put_frame(STATE, black_box(&held), &mut to);
        black_box(&to);
    });
    time("write Decision", || {
        let mut to = [0; DECISION_FRAME];
        put_frame(DECISION, black_box(&decision), &mut to);
        black_box(&to);
    });
}
