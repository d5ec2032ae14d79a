//! Flights after a script: something goes wrong and later comes right again, and the flight steps at one below,
//! exactly at, and one above the end of every hold that is pending.

use failsafe_open::{
    BatteryInputs, Config, GpsFix, GpsSample, LandedState, PositionSample, Stamped, Telemetry, Vec3,
};
use flights::holds;

use crate::Flight;

/// What goes wrong.
type Trouble = fn(&mut Telemetry);

/// Fresh and healthy, 40 m above home.
pub fn healthy(now: u32) -> Telemetry {
    let t_ms = now.wrapping_sub(20);
    let yes = Some(Stamped { t_ms, value: true });
    Telemetry {
        now_ms: now,
        position: Some(PositionSample {
            t_ms,
            pos: Vec3 {
                n: 10.0,
                e: -5.0,
                d: -40.0,
            },
            vel: Vec3 {
                n: 1.0,
                e: 0.5,
                d: 0.0,
            },
        }),
        gps: Some(GpsSample {
            t_ms,
            fix: GpsFix::Fix3D,
            sats: Some(14),
            hdop: Some(0.9),
        }),
        battery: BatteryInputs {
            voltage_v: Some(Stamped { t_ms, value: 16.0 }),
            percent: Some(Stamped { t_ms, value: 90.0 }),
            remaining_wh: Some(Stamped { t_ms, value: 36.0 }),
        },
        gcs_heartbeat_ms: Some(t_ms),
        armed: yes,
        landed: Some(Stamped {
            t_ms,
            value: LandedState::InAir,
        }),
        rc_ok: yes,
        ekf_ok: yes,
    }
}

fn place(t: &mut Telemetry, n: f32, e: f32, d: f32) {
    if let Some(sample) = &mut t.position {
        sample.pos = Vec3 { n, e, d };
    }
}

fn remaining(t: &mut Telemetry, wh: f32) {
    if let Some(reading) = &mut t.battery.remaining_wh {
        reading.value = wh;
    }
}

const TROUBLES: [Trouble; 24] = [
    |t| no_link(t, 3001),
    |t| no_link(t, 5001),
    |t| t.gcs_heartbeat_ms = None,
    |t| t.rc_ok = None,
    |t| {
        t.gps = t.gps.map(|gps| GpsSample {
            sats: Some(7),
            ..gps
        })
    },
    |t| {
        t.gps = t.gps.map(|gps| GpsSample {
            hdop: Some(2.6),
            ..gps
        })
    },
    |t| {
        t.gps = t.gps.map(|gps| GpsSample {
            fix: GpsFix::Fix2D,
            ..gps
        })
    },
    |t| t.gps = None,
    |t| {
        t.ekf_ok = t.ekf_ok.map(|ekf| Stamped {
            value: false,
            ..ekf
        })
    },
    near_side,
    |t| place(t, 501.0, 0.0, -40.0),
    |t| place(t, 10.0, 0.0, -121.0),
    |t| place(t, 30.0, 0.0, -4.0),
    |t| t.position = None,
    |t| place(t, f32::NAN, 0.0, -40.0),
    |t| {
        t.battery.voltage_v = None;
        t.battery.percent = None;
        t.battery.remaining_wh = None;
    },
    |t| {
        t.battery.remaining_wh = None;
        t.battery.percent = t.battery.percent.map(|x| Stamped { value: 29.0, ..x });
    },
    |t| {
        t.battery.remaining_wh = None;
        t.battery.percent = t.battery.percent.map(|x| Stamped { value: 19.0, ..x });
    },
    |t| {
        t.battery.remaining_wh = None;
        t.battery.percent = t.battery.percent.map(|x| Stamped { value: 9.0, ..x });
    },
    |t| t.battery.voltage_v = t.battery.voltage_v.map(|x| Stamped { value: 13.0, ..x }),
    |t| remaining(t, 13.0),
    |t| remaining(t, 8.0),
    |t| {
        t.gps = None;
        t.landed = t.landed.map(|x| Stamped {
            value: LandedState::OnGround,
            ..x
        });
    },
    |t| t.armed = t.armed.map(|x| Stamped { value: false, ..x }),
];

/// Steps around every end that is pending and not further ahead than this, the nearest first.
const HORIZON_MS: u32 = 20_000;

fn step_ends(flight: &mut Flight, trouble: Trouble, most: usize) {
    let mut steps = 0;
    while steps < most {
        let last = flight.last();
        let state = flight.both.state();
        let ahead = holds(&state, &flight.setup.cfg)
            .iter()
            .filter_map(|hold| {
                Some(
                    hold.since_ms?
                        .wrapping_add(hold.limit_ms)
                        .wrapping_sub(last),
                )
            })
            .filter(|&ahead| ahead > 0 && ahead < HORIZON_MS)
            .min();
        let Some(ahead) = ahead else { return };
        for reading in [ahead - 1, ahead, ahead + 1] {
            if reading > 0 {
                flight.step(with(last.wrapping_add(reading), trouble));
                steps += 1;
            }
        }
    }
}

/// Four steps: the filter refuses a far position three times.
fn begin(flight: &mut Flight, trouble: Trouble) {
    for k in [50, 51, 52, 53] {
        flight.step(with(flight.last().wrapping_add(k), trouble));
    }
}

fn with(now: u32, trouble: Trouble) -> Telemetry {
    let mut t = healthy(now);
    trouble(&mut t);
    t
}

/// One trouble, from a clock that starts at `start`.
pub fn trouble(flight: &mut Flight, trouble: Trouble, start: u32) {
    let right: Trouble = |_| {};
    for k in 0..3 {
        flight.step(healthy(start.wrapping_add(100 * k)));
    }
    step_ends(flight, right, 24);
    begin(flight, trouble);
    step_ends(flight, trouble, 24);
    flight.step(healthy(flight.last().wrapping_add(70)));
    step_ends(flight, right, 36);
}

/// A lesser trouble from the start, a greater one on top of it, and the lesser one alone again.
pub fn pair(flight: &mut Flight, lesser: Trouble, both: Trouble) {
    flight.step(healthy(0));
    begin(flight, lesser);
    step_ends(flight, lesser, 12);
    begin(flight, both);
    step_ends(flight, both, 12);
    flight.step(with(flight.last().wrapping_add(70), lesser));
    step_ends(flight, lesser, 36);
    flight.step(healthy(flight.last().wrapping_add(70)));
    step_ends(flight, |_| {}, 36);
}

/// The lesser trouble asks for Warn, Hold or ReturnToLaunch, the greater one for more.
pub const PAIRS: [(Trouble, Trouble); 6] = [
    (near_side, |t| {
        near_side(t);
        no_link(t, 5001);
    }),
    (near_side, |t| {
        near_side(t);
        t.rc_ok = None;
    }),
    (near_side, |t| {
        near_side(t);
        t.gps = None;
    }),
    (
        |t| no_link(t, 5001),
        |t| {
            no_link(t, 5001);
            t.rc_ok = None;
        },
    ),
    (
        |t| no_link(t, 5001),
        |t| {
            no_link(t, 5001);
            t.gps = None;
        },
    ),
    (
        |t| t.rc_ok = None,
        |t| {
            t.rc_ok = None;
            t.gps = None;
        },
    ),
];

fn near_side(t: &mut Telemetry) {
    place(t, 495.0, 0.0, -40.0);
    remaining(t, 40.0);
}

fn no_link(t: &mut Telemetry, ms: u32) {
    t.gcs_heartbeat_ms = Some(t.now_ms.wrapping_sub(ms));
}

/// Troubles of the battery come before those of the energy; an altitude's clear timer runs, as it
/// does only where alt_max_clear_m is negative.
pub fn frugal() -> Config {
    Config {
        reserve_wh: 0.0,
        energy_marginal_wh: 1.0,
        energy_marginal_clear_wh: 2.0,
        p_cruise: 100.0,
        alt_max_clear_m: -20.0,
        ..Config::default()
    }
}

pub fn troubles() -> impl Iterator<Item = Trouble> {
    TROUBLES.into_iter()
}
