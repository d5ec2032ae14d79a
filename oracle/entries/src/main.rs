//! The port's entries beside the Rust, on the same bytes: the number returned, all five buffers, and the bytes
//! around them, after every call.
//!   entries [STEPS [SEED]]
//! steps that many times in flights that seek the boundaries, with declined calls and states of all kinds
//! among them. Exit status 1: something differs, or something was not passed through.

mod met;

use flights::{
    Both, Coverage, Pilot, Setup, break_config, break_fence, config_frame, damage, once_round,
    star, wide,
};
use frames::{
    CONFIG, DECISION, STATE, STATE_FRAME, State, TELEMETRY, TELEMETRY_FRAME, put_frame, read_fence,
    read_frame, step_entry,
};
use port::{Call, Entry, Sides};
use random::Random;

/// So many configurations are drawn for a flight, at least; the last that is accepted is flown.
const DRAWN: usize = 4;

struct Driver {
    random: Random,
    sides: Sides,
    coverage: Coverage,
    declined: u64,
    several: u64,
    odd_states: u64,
}

impl Driver {
    /// A fence of either kind; now and then a star, as kind 2. What is drawn goes through both sides first, so that one that only
    /// the Rust, or only the port, refuses is seen.
    fn setup(&mut self) -> Result<Setup, String> {
        let mut setup = None;
        for drawn in 0.. {
            if drawn >= DRAWN && setup.is_some() {
                break;
            }
            let (cfg, fence) = wide(&mut self.random);
            self.judge(&config_frame(&cfg), &fence)?;
            setup = Setup::of(&cfg, fence).or(setup);
        }
        let setup = setup.expect("one that is accepted");
        let other = match self.random.below(8) {
            0 => setup.fenced(star(&mut self.random)),
            1..4 => setup.fenced(once_round(setup.fence.clone())),
            _ => None,
        };
        let setup = other.unwrap_or(setup);
        self.coverage
            .add("fence", format!("kind {}", setup.fence[2]));
        met::setup(&mut self.coverage, &setup.cfg);
        Ok(setup)
    }

    /// One step with this configuration and fence from a fresh state.
    fn judge(&mut self, config: &[u8], fence: &[u8]) -> Result<(), String> {
        let mut call = Call {
            config: config.to_vec(),
            fence: fence.to_vec(),
            state: self.fresh()?,
            telemetry: vec![0; TELEMETRY_FRAME],
            output: vec![0; 95],
            ..Call::default()
        };
        call.telemetry[..4].copy_from_slice(&[(TELEMETRY_FRAME - 2) as u8, 0, TELEMETRY as u8, 0]);
        self.sides.step(&mut call).map(|_| ())
    }

    /// One flight, from a fresh state.
    fn fly(&mut self, steps: usize) -> Result<(), String> {
        let setup = self.setup()?;
        let mut both = Both::new(&setup.config, &setup.fence).expect("an accepted configuration");
        let mut pilot = Pilot::wide(&mut self.random);
        let mut call = Call {
            config: setup.config.to_vec(),
            fence: setup.fence.clone(),
            state: self.fresh()?,
            ..Call::default()
        };
        assert_eq!(
            call.state,
            both.state_frame(),
            "the fresh entry and Supervisor::new differ"
        );
        for _ in 0..steps {
            let old = both.state();
            let t = pilot.next(&mut self.random, &setup, &old);
            call.telemetry = vec![0; TELEMETRY_FRAME];
            put_frame(TELEMETRY, &t, &mut call.telemetry);
            let with_side = self.random.chance(3);
            call.entry = if with_side { Entry::Side } else { Entry::Plain };
            let room = 95 + with_side as usize + self.random.below(3) * 20;
            call.output = (0..room).map(|k| k as u8 ^ 0x5A).collect();
            if self.random.chance(3) {
                self.decline(&call)?;
            }
            if self.random.chance(8) {
                self.odd_state(&call)?;
            }
            let decision = both.step(&call.telemetry);
            let number = self.sides.step(&mut call)?;
            assert_eq!(number, 0, "the Rust's entry declined a step of a flight");
            let mut shown = call.output.clone();
            if with_side {
                let side = shown.remove(94);
                self.coverage.add("side", format!("{side}"));
                shown[..4].copy_from_slice(&decision[..4]);
            }
            assert_eq!(
                shown[..95],
                decision,
                "the Rust's entry and the Rust differ"
            );
            assert_eq!(
                call.state,
                both.state_frame(),
                "the Rust's entry and the Rust differ"
            );
            let d = read_frame(DECISION, &decision).expect("a Decision");
            let new = both.state();
            self.coverage.step(&setup, &old, &t, &d, &new);
            met::step(&mut self.coverage, &setup, &old, &t, &d, &new);
        }
        Ok(())
    }

    /// A fresh state from a slice of some length.
    fn fresh(&mut self) -> Result<Vec<u8>, String> {
        let len = self.random.one_of(&[0, 1, 185, 186, 187, 250]);
        let mut state: Vec<u8> = (0..len).map(|_| self.random.u32() as u8).collect();
        let number = self.sides.fresh(&mut state)?;
        self.coverage.add("fresh", format!("{number}"));
        let mut state = vec![0x11; STATE_FRAME];
        self.sides.fresh(&mut state)?;
        Ok(state)
    }

    /// A call beside the flight with one fault or several, mostly declined.
    fn decline(&mut self, sound: &Call) -> Result<(), String> {
        let random = &mut self.random;
        let mut call = sound.clone();
        let faults = 1 + random.below(3);
        for _ in 0..faults {
            match random.below(11) {
                0 => damage(random, &mut call.config),
                1 => damage(random, &mut call.fence),
                2 | 3 => damage(random, &mut call.state),
                4 | 5 => damage(random, &mut call.telemetry),
                6 => call.output.truncate(random.below(96)),
                7 => call.fence = break_fence(random),
                10 => {
                    let fence = if random.chance(2) {
                        star(random)
                    } else {
                        break_fence(random)
                    };
                    call.fence = once_round(fence);
                }
                8 => {
                    if let Ok(config) = call.config.as_mut_slice().try_into() {
                        break_config(random, config);
                    }
                }
                _ => std::mem::swap(&mut call.telemetry, &mut call.state),
            }
        }
        let given = call.clone();
        self.check(&given, sound)?;
        let number = self.sides.step(&mut call)?;
        if number != 0 {
            assert_eq!(
                given.state, call.state,
                "the Rust's entry wrote to a declined state"
            );
            assert_eq!(
                given.output, call.output,
                "the Rust's entry wrote to a declined output"
            );
            self.declined += 1;
            self.several += (faults > 1) as u64;
        }
        self.coverage
            .add("number", format!("{number} {}", part(&given, number)));
        Ok(())
    }

    /// `failsafe_check` answers what a step with a sound rest does in the Rust.
    fn check(&mut self, call: &Call, sound: &Call) -> Result<(), String> {
        let mut rest = sound.clone();
        let due = step_entry(
            &call.config,
            &call.fence,
            &mut rest.state,
            &rest.telemetry,
            &mut rest.output,
        );
        match port::check(&call.config, &call.fence) {
            Some(number) if number != due => Err(format!(
                "failsafe_check answers {number}, and the Rust {due}\n"
            )),
            _ => Ok(()),
        }
    }

    /// Two steps from a state that no flight may have reached.
    fn odd_state(&mut self, sound: &Call) -> Result<(), String> {
        let random = &mut self.random;
        let mut call = sound.clone();
        for _ in 0..1 + random.below(12) {
            let now = u32::from_le_bytes([
                call.telemetry[4],
                call.telemetry[5],
                call.telemetry[6],
                call.telemetry[7],
            ]);
            let ms = random.one_of(&[now, now.wrapping_sub(5000), now.wrapping_add(1), 0, 1 << 31]);
            // The 25 timers, the recovery's start, the disarm hold and the last reading.
            let at = match random.below(28) {
                24 => 127,
                25 => 135,
                26 => 140,
                27 => 175,
                timer => 6 + 5 * timer,
            };
            match random.below(9) {
                0..=2 => put_option(&mut call.state[at..at + 5], Some(ms)),
                3 => put_option(&mut call.state[at..at + 5], None),
                4 => call.state[145..174].fill(0),
                5 => put_sample(&mut call.state[145..174], ms, random),
                6 => call.state[174] = random.one_of(&[0, 2, 3, 4, 254, 255]),
                7 => call.state[180..184].copy_from_slice(&ms.to_le_bytes()),
                _ => {
                    let byte = random.one_of(&[4, 5, 126, 132, 133, 134, 184, 185]);
                    call.state[byte] = random.below(5) as u8;
                }
            }
        }
        for _ in 0..2 {
            let given = call.clone();
            let number = self.sides.step(&mut call)?;
            self.odd_states += (number == 0) as u64;
            self.coverage
                .add("number", format!("{number} {}", part(&given, number)));
        }
        Ok(())
    }

    /// The numbers that have to be met, each with the buffer that it is about.
    fn missing(&self) -> Vec<String> {
        let mut wanted: Vec<String> = Vec::new();
        for part in ["configuration", "state", "telemetry"] {
            wanted.extend((1..5).map(|number| format!("{number} {part}")));
        }
        wanted.extend((1..4).map(|number| format!("{number} fence")));
        wanted.push("5 output".into());
        wanted.extend(
            (10..19)
                .chain([33])
                .map(|number| format!("{number} fence rules")),
        );
        wanted.extend((20..29).map(|number| format!("{number} configuration rules")));
        let missing = wanted
            .into_iter()
            .filter(|which| !self.coverage.has("number", which));
        let mut missing: Vec<String> = missing.map(|which| format!("number: {which}")).collect();
        for side in ["0", "1", "2", "3", "255"] {
            if !self.coverage.has("side", side) {
                missing.push(format!("side: {side}"));
            }
        }
        for number in ["0", "5"] {
            if !self.coverage.has("fresh", number) {
                missing.push(format!("fresh: {number}"));
            }
        }
        missing
    }
}

fn put_option(to: &mut [u8], value: Option<u32>) {
    to.fill(0);
    if let Some(ms) = value {
        to[0] = 1;
        to[1..].copy_from_slice(&ms.to_le_bytes());
    }
}

/// A stored sample near the fence or far off; now and then a number that no state may hold.
fn put_sample(to: &mut [u8], ms: u32, random: &mut Random) {
    put_option(&mut to[..5], Some(ms));
    for number in to[5..].chunks_exact_mut(4) {
        let x = random.one_of(&[0.0, -0.0, 2.5, -20.0, 499.0, 501.0, 1e-40, f32::MAX]);
        let x = if random.below(60) == 0 { f32::NAN } else { x };
        number.copy_from_slice(&x.to_le_bytes());
    }
}

/// What the number is about.
fn part(call: &Call, number: u32) -> &'static str {
    if number == 0 {
        ""
    } else if read_frame::<failsafe_open::Config>(CONFIG, &call.config).is_err() {
        "configuration"
    } else if read_fence(&call.fence).is_err() {
        "fence"
    } else if (20..30).contains(&number) {
        "configuration rules"
    } else if number >= 10 {
        "fence rules"
    } else if State::read_frame(&call.state).is_err() {
        "state"
    } else if number == 5 {
        "output"
    } else {
        "telemetry"
    }
}

fn main() {
    let mut arguments = std::env::args().skip(1).map(|word| word.parse::<u64>());
    let (steps, seed) = (
        arguments.next().unwrap_or(Ok(100_000)),
        arguments.next().unwrap_or(Ok(3)),
    );
    let (Ok(steps), Ok(seed)) = (steps, seed) else {
        eprintln!("usage: entries [STEPS [SEED]]");
        std::process::exit(2);
    };
    const { assert!(STATE == 5) }
    println!("seed {seed}, {steps} steps");
    let mut driver = Driver {
        random: Random::new(seed),
        sides: Sides::default(),
        coverage: Coverage::default(),
        declined: 0,
        several: 0,
        odd_states: 0,
    };
    while driver.coverage.steps < steps {
        let left = (steps - driver.coverage.steps) as usize;
        let most = 100 + driver.random.below(400);
        if let Err(told) = driver.fly(left.min(most)) {
            println!(
                "after {} steps of seed {seed}:\n{told}differs",
                driver.coverage.steps
            );
            std::process::exit(1);
        }
    }
    driver.coverage.report();
    println!(
        "{} steps, {} declined calls ({} with several faults), {} steps from states that no flight left: nothing differs",
        driver.coverage.steps, driver.declined, driver.several, driver.odd_states
    );
    let mut missing = driver.missing();
    missing.extend(met::missing(&driver.coverage));
    missing.extend(driver.coverage.missing());
    if !missing.is_empty() {
        println!("not passed through: {}", missing.join(", "));
        std::process::exit(1);
    }
}
