//! How long a step takes: the port's entry, the plain Rust entry, and `Supervisor::step` alone, on the same
//! frames, in rounds that take turns; a step beside areas, and one under kind 11; frames read and written anew; then `decide` beside the Rust program
//! on one stream.
//!   bench [PORT_DECIDE RUST_DECIDE STREAM]
//! Nothing here passes or fails.

#[cfg(not(feature = "standin"))]
mod again;
mod areas;
mod clock;
mod parts;
mod programs;
#[cfg(not(feature = "standin"))]
mod raised;

use std::hint::black_box;

use failsafe_core::{Supervisor, Telemetry};
use flights::{Both, Pilot, Setup, fence_frame};
use frames::{
    CONFIG, SIDE_FRAME, STATE_FRAME, TELEMETRY, TELEMETRY_FRAME, fence_core, fresh_entry,
    put_frame, read_fence, read_frame, step_entry,
};
use random::Random;

const ROUNDS: usize = 61;
const FLIGHTS: usize = 12;
const STEPS: usize = 400;

struct Flight {
    setup: Setup,
    frames: Vec<[u8; TELEMETRY_FRAME]>,
    telemetry: Vec<Telemetry>,
    supervisor: Supervisor,
}

fn flight(random: &mut Random, setup: &Setup) -> Flight {
    let mut both = Both::new(&setup.config, &setup.fence).expect("an accepted configuration");
    let mut pilot = Pilot::new(random);
    let mut frames = Vec::new();
    for _ in 0..STEPS {
        let t = pilot.next(random, setup, &both.state());
        let mut frame = [0; TELEMETRY_FRAME];
        put_frame(TELEMETRY, &t, &mut frame);
        both.step(&frame);
        frames.push(frame);
    }
    let telemetry = frames
        .iter()
        .map(|frame| read_frame(TELEMETRY, frame).expect("telemetry"));
    let cfg = read_frame(CONFIG, &setup.config).expect("a configuration");
    let fence = fence_core(&read_fence(&setup.fence).expect("a fence")).expect("a fence");
    Flight {
        telemetry: telemetry.collect(),
        supervisor: Supervisor::new(cfg, fence).expect("an accepted configuration"),
        frames,
        setup: setup.clone(),
    }
}

/// Flies all flights through an entry.
fn through(
    flights: &[Flight],
    fresh: impl Fn(&mut [u8]) -> u32,
    step: impl Fn(&[u8], &[u8], &mut [u8], &[u8], &mut [u8]) -> u32,
) {
    for flight in flights {
        let mut state = [0; STATE_FRAME];
        let mut output = [0; SIDE_FRAME];
        fresh(&mut state);
        for frame in &flight.frames {
            let number = step(
                black_box(&flight.setup.config),
                black_box(&flight.setup.fence),
                &mut state,
                black_box(frame),
                &mut output,
            );
            assert_eq!(number, 0);
            black_box(&output);
        }
    }
}

/// Flies all flights with `Supervisor::step` alone.
fn alone(flights: &[Flight]) {
    for flight in flights {
        let mut supervisor = flight.supervisor.clone();
        for raw in &flight.telemetry {
            black_box(supervisor.step(black_box(raw)));
        }
    }
}

/// The median and the least of the rounds.
pub fn summary(mut times: Vec<f64>) -> [f64; 2] {
    times.sort_by(f64::total_cmp);
    [times[times.len() / 2], times[0]]
}

/// A line of a table: what was timed, or a ratio, by medians and by the least.
pub fn tell(name: &str, [median, least]: [f64; 2], digits: usize) {
    println!("  {name:36} {median:9.digits$} {least:9.digits$}");
}

pub fn ratio(a: [f64; 2], b: [f64; 2]) -> [f64; 2] {
    [a[0] / b[0], a[1] / b[1]]
}

/// Nanoseconds for each step, of sides that fly all flights and take turns.
fn rounds<const N: usize>(sides: [&dyn Fn(); N]) -> [[f64; 2]; N] {
    let mut times = [const { Vec::new() }; N];
    for round in 0..ROUNDS + 1 {
        for turn in 0..N {
            let k = (round + turn) % N;
            let ns = clock::ns(sides[k]) / (FLIGHTS * STEPS) as f64;
            // The first round warms up.
            if round > 0 {
                times[k].push(ns);
            }
        }
    }
    times.map(summary)
}

/// Times the entries, and hands the flights on.
fn entries(what: &str, setup: &Setup) -> Vec<Flight> {
    let mut random = Random::new(7);
    let flights: Vec<Flight> = (0..FLIGHTS).map(|_| flight(&mut random, setup)).collect();
    let sides: [(&str, &dyn Fn()); 3] = [
        ("failsafe_step", &|| {
            through(&flights, port::fresh, port::step)
        }),
        ("plain Rust entry", &|| {
            through(&flights, fresh_entry, step_entry)
        }),
        ("Supervisor::step", &|| alone(&flights)),
    ];
    let [port, rust, step] = rounds(sides.map(|(_, side)| side));
    println!("{what}: ns for each step; median and least of {ROUNDS} rounds");
    for ((name, _), ns) in sides.iter().zip([port, rust, step]) {
        tell(name, ns, 1);
    }
    tell("failsafe_step / plain Rust entry", ratio(port, rust), 3);
    tell("failsafe_step / Supervisor::step", ratio(port, step), 3);
    tell("plain Rust entry / Supervisor::step", ratio(rust, step), 3);
    parts::parts(&flights[0]);
    areas::areas(&flights);
    #[cfg(not(feature = "standin"))]
    raised::raised(&flights);
    flights
}

fn main() {
    let default = Setup::defaults();
    let flights = entries("default configuration, fence of 4 corners", &default);
    #[cfg(not(feature = "standin"))]
    again::again(&flights[0]);
    #[cfg(feature = "standin")]
    drop(flights);
    let ring = random::circle(&mut Random::new(3), 16, 500.0, (0.0, 0.0));
    let round = Setup::of(&default.cfg, fence_frame(5.0, 120.0, &ring));
    entries(
        "default configuration, fence of 16 corners",
        &round.expect("an accepted fence"),
    );
    let words: Vec<String> = std::env::args().skip(1).collect();
    if let [port, rust, stream] = words.as_slice() {
        programs::compare(port, rust, stream);
    }
}
