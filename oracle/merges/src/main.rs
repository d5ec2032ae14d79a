//! The port's `failsafe_merge` beside document 02's L10 in plain Rust, on the same bytes: the number, the output and the
//! bytes around it, the frames that were handed over; then the merged frame through a step beside the Rust.
//!   merges [FLIGHTS [SEED]]
//!   merges --write FOLDER
//! First every pair of states of each of the ten readings, then flights with damaged calls among them. Exit status 1:
//! something differs, or something was not passed through. CUTHRANSI_FAULT=1 to 8 puts a fault into the rule here. With
//! --write the pairs alone, as three files of frames: first, second and merged, each after configuration and fence.

mod model;

use std::collections::BTreeSet;
use std::path::Path;

use failsafe_open::{
    BatteryInputs, GpsFix, GpsSample, LandedState, PositionSample, Stamped, Telemetry, Vec3,
};
use flights::{Both, Pilot, Setup, break_config, break_fence, damage};
use frames::{TELEMETRY, TELEMETRY_FRAME, put_frame};
use random::Random;

unsafe extern "C" {
    fn failsafe_merge(
        config: *const u8,
        config_len: usize,
        fence: *const u8,
        fence_len: usize,
        first: *const u8,
        first_len: usize,
        second: *const u8,
        second_len: usize,
        output: *mut u8,
        output_len: usize,
    ) -> u32;
}

const AROUND: usize = 32;
/// The places of a telemetry frame's floats.
const FLOATS: [usize; 10] = [13, 17, 21, 25, 29, 33, 46, 55, 64, 73];

#[derive(Clone)]
struct Call {
    config: Vec<u8>,
    fence: Vec<u8>,
    first: Vec<u8>,
    second: Vec<u8>,
    output: Vec<u8>,
}

impl Call {
    fn of(setup: &Setup, a: &Telemetry, b: &Telemetry) -> Self {
        Call {
            config: setup.config.to_vec(),
            fence: setup.fence.clone(),
            first: frame(a),
            second: frame(b),
            output: (0..TELEMETRY_FRAME + 20).map(|k| k as u8 ^ 0x5A).collect(),
        }
    }

    fn hex(&self) -> String {
        let part = |name: &str, bytes: &[u8]| {
            let hex: Vec<String> = bytes.iter().map(|byte| format!("{byte:02X}")).collect();
            format!("given {name} ({} bytes): {}\n", bytes.len(), hex.join(" "))
        };
        part("configuration", &self.config)
            + &part("fence", &self.fence)
            + &part("first", &self.first)
            + &part("second", &self.second)
            + &part("output", &self.output)
    }
}

fn frame(t: &Telemetry) -> Vec<u8> {
    let mut frame = vec![0; TELEMETRY_FRAME];
    put_frame(TELEMETRY, t, &mut frame);
    frame
}

/// Gives each NaN of a frame other bits.
fn other_nans(random: &mut Random, frame: &mut [u8]) {
    for at in FLOATS {
        let bits = u32::from_le_bytes(frame[at..at + 4].try_into().expect("four bytes"));
        if f32::from_bits(bits).is_nan() {
            let other = 0x7F80_0001 | (random.u32() & 0x803F_FFFF);
            frame[at..at + 4].copy_from_slice(&other.to_le_bytes());
        }
    }
}

#[derive(Default)]
struct Driver {
    fault: model::Fault,
    calls: u64,
    numbers: BTreeSet<(u32, &'static str)>,
    /// The frames of the pairs: first, second, merged.
    streams: [Vec<u8>; 3],
}

impl Driver {
    /// Both sides on equal bytes. The output is put back into the call.
    fn merge(&mut self, call: &mut Call) -> Result<u32, String> {
        self.calls += 1;
        let mut expected = call.output.clone();
        let number = match model::merge(
            self.fault,
            &call.config,
            &call.fence,
            &call.first,
            &call.second,
            &mut expected,
        ) {
            Ok(()) => 0,
            Err(number) => number,
        };
        let len = call.output.len();
        let mut room = vec![0xA5; len + 2 * AROUND];
        room[AROUND..AROUND + len].copy_from_slice(&call.output);
        let given = call.clone();
        // SAFETY: five slices that are alive and do not overlap.
        let port = unsafe {
            failsafe_merge(
                call.config.as_ptr(),
                call.config.len(),
                call.fence.as_ptr(),
                call.fence.len(),
                call.first.as_ptr(),
                call.first.len(),
                call.second.as_ptr(),
                call.second.len(),
                room[AROUND..].as_mut_ptr(),
                len,
            )
        };
        let mut all = vec![0xA5; len + 2 * AROUND];
        all[AROUND..AROUND + len].copy_from_slice(&expected);
        if port != number {
            return Err(format!(
                "returned: {port}, where the rule gives {number}\n{}",
                given.hex()
            ));
        }
        if let Some(at) = (0..all.len()).find(|at| all[*at] != room[*at]) {
            return Err(format!(
                "output: byte {} is {:02X}, where the rule gives {:02X}\n{}",
                at as isize - AROUND as isize,
                room[at],
                all[at],
                given.hex()
            ));
        }
        call.output.copy_from_slice(&expected);
        Ok(number)
    }

    /// Each pair of states of one reading, alone and among readings that both radios have.
    fn pairs(&mut self, random: &mut Random) -> Result<u64, String> {
        let setup = Setup::defaults();
        let mut tried = 0;
        self.streams = std::array::from_fn(|_| [&setup.config[..], &setup.fence].concat());
        for now in [1000, 3, 0x8000_0000, u32::MAX] {
            for reading in 0..10 {
                let states = states(reading, now);
                for x in &states {
                    for y in &states {
                        for others in [false, true] {
                            let mut a = base(now, others, 0);
                            let mut b = base(now, others, 1);
                            put(&mut a, reading, *x, 0);
                            put(&mut b, reading, *y, 1);
                            let mut call = Call::of(&setup, &a, &b);
                            other_nans(random, &mut call.first);
                            other_nans(random, &mut call.second);
                            let number = self.merge(&mut call)?;
                            assert_eq!(number, 0, "the rule declined two sound frames");
                            let frames = [&call.first, &call.second, &call.output];
                            for (stream, frame) in self.streams.iter_mut().zip(frames) {
                                stream.extend(&frame[..TELEMETRY_FRAME]);
                            }
                            tried += 1;
                        }
                    }
                }
            }
        }
        Ok(tried)
    }

    /// A flight on merged frames, with declined calls beside it.
    fn fly(&mut self, random: &mut Random, steps: usize) -> Result<u64, String> {
        let setup = Setup::random(random);
        let mut both = Both::new(&setup.config, &setup.fence).expect("an accepted configuration");
        let mut pilots = [Pilot::new(random), Pilot::new(random)];
        let mut state = both.state_frame();
        assert_eq!(port::fresh(&mut state), 0);
        for _ in 0..steps {
            let held = both.state();
            let a = pilots[0].next(random, &setup, &held);
            let mut b = pilots[1].next(random, &setup, &held);
            let apart = b.now_ms.wrapping_sub(a.now_ms);
            restamp(&mut b, apart);
            let mut call = Call::of(&setup, &a, &b);
            other_nans(random, &mut call.first);
            other_nans(random, &mut call.second);
            for _ in 0..2 {
                self.decline(random, &call)?;
            }
            let number = self.merge(&mut call)?;
            assert_eq!(number, 0, "the rule declined two sound frames");
            let telemetry = &call.output[..TELEMETRY_FRAME];
            let decision = both.step(telemetry);
            let mut output = [0; 95];
            let number = port::step(
                &setup.config,
                &setup.fence,
                &mut state,
                telemetry,
                &mut output,
            );
            if number != 0 || output != decision || state != both.state_frame() {
                return Err(format!(
                    "the step on a merged frame differs from the Rust's\n{}",
                    call.hex()
                ));
            }
        }
        Ok(steps as u64)
    }

    /// A call with one fault or several, mostly declined.
    fn decline(&mut self, random: &mut Random, sound: &Call) -> Result<(), String> {
        let mut call = sound.clone();
        let mut only = "several";
        let faults = 1 + random.below(3);
        for _ in 0..faults {
            let part = match random.below(9) {
                0 => {
                    damage(random, &mut call.config);
                    "configuration"
                }
                1 => {
                    damage(random, &mut call.fence);
                    "fence"
                }
                2 => {
                    call.fence = break_fence(random);
                    "fence"
                }
                3 => {
                    if let Ok(config) = call.config.as_mut_slice().try_into() {
                        break_config(random, config);
                    }
                    "configuration"
                }
                4 => {
                    damage(random, &mut call.first);
                    "first"
                }
                5 => {
                    damage(random, &mut call.second);
                    "second"
                }
                6 => {
                    call.output.truncate(random.below(TELEMETRY_FRAME + 1));
                    "output"
                }
                7 => {
                    std::mem::swap(&mut call.first, &mut call.second);
                    "second"
                }
                _ => {
                    if call.second.len() > 7 {
                        call.second[4 + random.below(4)] ^= 1 << random.below(8);
                    }
                    "second"
                }
            };
            if faults == 1 {
                only = part;
            }
        }
        let given = call.output.clone();
        let number = self.merge(&mut call)?;
        if number != 0 {
            assert_eq!(given, call.output, "the rule wrote to a declined output");
        }
        self.numbers.insert((number, only));
        Ok(())
    }

    /// What has to have been passed through and was not.
    fn missing(&self) -> Vec<String> {
        let mut wanted = vec![(38, "second"), (5, "output")];
        for part in ["configuration", "fence", "first", "second"] {
            wanted.extend(
                (1..=4)
                    .filter(|n| (part, *n) != ("fence", 4))
                    .map(|n| (n, part)),
            );
        }
        wanted.extend((10..=18).map(|n| (n, "fence")));
        wanted.extend((22..=28).map(|n| (n, "configuration")));
        wanted
            .into_iter()
            .filter(|seen| !self.numbers.contains(seen))
            .map(|(number, part)| format!("{number} for the {part}"))
            .collect()
    }
}

/// A reading's state: absent, or kept or not, with a stamp.
type State = Option<(bool, u32)>;

/// Absent; then dropped, where it can be, and kept, each of age 0, 5, 6, the greatest, and of none.
fn states(reading: usize, now: u32) -> Vec<State> {
    let ages = [0, 5, 6, 0x7FFF_FFFF, 0x8000_0000, u32::MAX];
    let kept: &[bool] = if reading < 5 { &[false, true] } else { &[true] };
    let mut all = vec![None];
    for kept in kept {
        all.extend(ages.map(|age| Some((*kept, now.wrapping_sub(age)))));
    }
    all
}

/// Puts a reading in a state; the two radios' values differ.
fn put(t: &mut Telemetry, reading: usize, state: State, radio: u32) {
    let k = radio as f32;
    let stamped = |good: f32, bad: f32| {
        state.map(|(kept, t_ms)| Stamped {
            t_ms,
            value: if kept { good + k } else { bad },
        })
    };
    let flag = state.map(|(_, t_ms)| Stamped {
        t_ms,
        value: radio == 0,
    });
    match reading {
        0 => {
            t.position = state.map(|(kept, t_ms)| PositionSample {
                t_ms,
                pos: Vec3 {
                    n: if kept { k } else { 10_001.0 + k },
                    e: 2.0,
                    d: -30.0,
                },
                vel: Vec3 {
                    n: 1.0,
                    e: k,
                    d: if kept { 0.0 } else { f32::NAN },
                },
            });
        }
        1 => {
            t.gps = state.map(|(kept, t_ms)| GpsSample {
                t_ms,
                fix: if radio == 0 {
                    GpsFix::Fix3D
                } else {
                    GpsFix::Fix2D
                },
                sats: (radio == 0).then_some(9),
                hdop: if kept {
                    (radio == 1).then_some(0.5)
                } else {
                    Some(f32::NAN)
                },
            });
        }
        2 => t.battery.voltage_v = stamped(15.0, 101.0 + k),
        3 => t.battery.percent = stamped(50.0, f32::NAN),
        4 => t.battery.remaining_wh = stamped(20.0, 44.1 + k),
        5 => t.gcs_heartbeat_ms = state.map(|(_, t_ms)| t_ms),
        6 => t.armed = flag,
        7 => {
            t.landed = state.map(|(_, t_ms)| Stamped {
                t_ms,
                value: if radio == 0 {
                    LandedState::InAir
                } else {
                    LandedState::Landing
                },
            });
        }
        8 => t.rc_ok = flag,
        _ => t.ekf_ok = flag,
    }
}

/// No reading, or all of them, of age 5 with the first radio and 4 with the second.
fn base(now: u32, all: bool, radio: u32) -> Telemetry {
    let mut t = Telemetry {
        now_ms: now,
        position: None,
        gps: None,
        battery: BatteryInputs {
            voltage_v: None,
            percent: None,
            remaining_wh: None,
        },
        gcs_heartbeat_ms: None,
        armed: None,
        landed: None,
        rc_ok: None,
        ekf_ok: None,
    };
    if all {
        for reading in 0..10 {
            put(
                &mut t,
                reading,
                Some((true, now.wrapping_sub(5 - radio))),
                radio,
            );
        }
    }
    t
}

/// Moves a telemetry to a clock reading that lies `back` before its own.
fn restamp(t: &mut Telemetry, back: u32) {
    t.now_ms = t.now_ms.wrapping_sub(back);
    macro_rules! stamps {
        ($($($field:ident).+),*) => {
            $(if let Some(x) = &mut t.$($field).+ {
                x.t_ms = x.t_ms.wrapping_sub(back);
            })*
        };
    }
    stamps!(
        position,
        gps,
        battery.voltage_v,
        battery.percent,
        battery.remaining_wh,
        armed,
        landed,
        rc_ok,
        ekf_ok
    );
    t.gcs_heartbeat_ms = t.gcs_heartbeat_ms.map(|h| h.wrapping_sub(back));
}

fn run(driver: &mut Driver, random: &mut Random, flights: u64) -> Result<(), String> {
    let pairs = driver.pairs(random)?;
    let mut steps = 0;
    for _ in 0..flights {
        steps += driver.fly(random, 50)?;
    }
    let missing = driver.missing();
    if flights >= 100 && !missing.is_empty() {
        return Err(format!("not passed through: {}", missing.join(", ")));
    }
    println!(
        "nothing differs: {pairs} pairs of states of a reading, {} calls in all, {steps} steps on merged frames",
        driver.calls
    );
    Ok(())
}

fn write(folder: &Path) -> std::io::Result<()> {
    let mut driver = Driver::default();
    driver.pairs(&mut Random::new(10)).expect("nothing differs");
    for (name, stream) in ["first", "second", "merged"].iter().zip(&driver.streams) {
        std::fs::write(folder.join(name), stream)?;
    }
    Ok(())
}

fn main() {
    let words: Vec<String> = std::env::args().skip(1).collect();
    if let [flag, folder] = words.as_slice()
        && flag == "--write"
    {
        write(Path::new(folder)).expect("three files");
        return;
    }
    let words: Vec<u64> = words
        .iter()
        .map(|word| word.parse().expect("a number"))
        .collect();
    let mut random = Random::new(words.get(1).copied().unwrap_or(10));
    let fault = std::env::var("CUTHRANSI_FAULT").map_or(0, |n| n.parse().expect("a number"));
    assert!(fault <= model::FAULTS);
    let mut driver = Driver {
        fault,
        ..Driver::default()
    };
    let flights = words.first().copied().unwrap_or(400);
    if let Err(what) = run(&mut driver, &mut random, flights) {
        println!("differs: {what}");
        std::process::exit(1);
    }
}
