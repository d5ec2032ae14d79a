//! The port's step under kind 11 beside its step under kind 1, on the same telemetry.

use std::hint::black_box;

use frames::{CONFIG_RAISED, RAISED_STATE_FRAME, SIDE_FRAME};

use crate::{Flight, ROUNDS, ratio, rounds, tell, through};

/// Flies all flights under kind 11.
fn keeping(flights: &[Flight]) {
    for flight in flights {
        let mut config = flight.setup.config;
        config[2..4].copy_from_slice(&CONFIG_RAISED.to_le_bytes());
        let mut state = [0; RAISED_STATE_FRAME];
        let mut output = [0; SIDE_FRAME];
        port::fresh_raised(&mut state);
        for frame in &flight.frames {
            let number = port::step(
                black_box(&config),
                black_box(&flight.setup.fence),
                &mut state,
                black_box(frame),
                &mut output,
            );
            assert_eq!(number, 0);
            black_box(&output);
        }
    }
}

pub fn raised(flights: &[Flight]) {
    let [one, eleven] = rounds([&|| through(flights, port::fresh, port::step), &|| {
        keeping(flights)
    }]);
    println!("under kind 11: ns for each step; median and least of {ROUNDS} rounds");
    tell("failsafe_step, kind 1", one, 1);
    tell("failsafe_step, kind 11", eleven, 1);
    tell("kind 11 / kind 1", ratio(eleven, one), 3);
}
