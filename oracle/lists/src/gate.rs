//! The disarm gate, lent: one evaluation from any gate, and the gate that it leaves.

use failsafe_open::disarm::DisarmGate;
use failsafe_open::{Action, BatteryInputs, Config, LandedState, Stamped, Telemetry};

use crate::rows::{Asks, Rows};
use random::Random;

const LANDED: [LandedState; 5] = [
    LandedState::Undefined,
    LandedState::OnGround,
    LandedState::InAir,
    LandedState::Takeoff,
    LandedState::Landing,
];

const ACTIONS: [Action; 5] = [
    Action::Nominal,
    Action::Warn,
    Action::Hold,
    Action::ReturnToLaunch,
    Action::Land,
];

/// What a row gives. An age counts back from now; a state and an action are numbers in declared order.
#[derive(Clone, Copy)]
struct Asked {
    since: Option<u32>,
    now: u32,
    armed: Option<(u32, bool)>,
    landed: Option<(u32, usize)>,
    fresh: u32,
    hold: u32,
    requested: usize,
    fault: bool,
}

fn option(x: Option<u32>) -> [u32; 2] {
    [x.is_some() as u32, x.unwrap_or(0)]
}

fn add_row(rows: &mut Rows, a: Asked) {
    let at = |age: u32| a.now.wrapping_sub(age);
    let since = a.since.map(at);
    let armed = a.armed.map(|(age, value)| Stamped {
        t_ms: at(age),
        value,
    });
    let landed = a.landed.map(|(age, state)| Stamped {
        t_ms: at(age),
        value: LANDED[state],
    });
    let t = Telemetry {
        now_ms: a.now,
        position: None,
        gps: None,
        battery: BatteryInputs {
            voltage_v: None,
            percent: None,
            remaining_wh: None,
        },
        gcs_heartbeat_ms: None,
        armed,
        landed,
        rc_ok: None,
        ekf_ok: None,
    };
    let cfg = Config {
        status_fresh_ms: a.fresh,
        disarm_hold_ms: a.hold,
        ..Config::default()
    };
    let mut asked = option(since).to_vec();
    asked.push(a.now);
    asked.extend(option(armed.map(|s| s.t_ms)));
    asked.push(armed.is_some_and(|s| s.value) as u32);
    asked.extend(option(landed.map(|s| s.t_ms)));
    asked.push(a.landed.map_or(0, |(_, state)| state as u32));
    asked.extend([a.fresh, a.hold, a.requested as u32, a.fault as u32]);
    let mut gate = DisarmGate {
        hold_since_ms: since,
    };
    let eligible = gate.evaluate(a.now, &t, &cfg, ACTIONS[a.requested], a.fault);
    let left = option(gate.hold_since_ms);
    rows.add(Asks::Evaluate, &asked, &[eligible as u32, left[0], left[1]]);
}

/// An open gate whose hold of three seconds has just been met.
const OPEN: Asked = Asked {
    since: Some(3000),
    now: 10_000,
    armed: Some((100, true)),
    landed: Some((200, 1)),
    fresh: 1000,
    hold: 3000,
    requested: 4,
    fault: false,
};

/// 2^31, and so the first age that is none.
const HALF: u32 = 0x8000_0000;

/// One thing at a time away from the open gate, at clocks that wrap and don't.
fn one_by_one(rows: &mut Rows) {
    for now in [10_000, 0, 999, HALF, u32::MAX] {
        let open = Asked { now, ..OPEN };
        for since in [0, 1, 2999, 3000, 3001, HALF - 1, HALF, HALF + 1, u32::MAX] {
            add_row(
                rows,
                Asked {
                    since: Some(since),
                    ..open
                },
            );
        }
        add_row(
            rows,
            Asked {
                since: None,
                ..open
            },
        );
        add_row(
            rows,
            Asked {
                since: None,
                hold: 0,
                ..open
            },
        );
        for value in [true, false] {
            for age in [0, 999, 1000, 1001, HALF - 1, HALF, u32::MAX] {
                add_row(
                    rows,
                    Asked {
                        armed: Some((age, value)),
                        ..open
                    },
                );
            }
        }
        for state in 0..5 {
            for age in [0, 999, 1000, 1001, HALF, u32::MAX] {
                add_row(
                    rows,
                    Asked {
                        landed: Some((age, state)),
                        ..open
                    },
                );
            }
        }
        for requested in 0..5 {
            for fault in [false, true] {
                add_row(
                    rows,
                    Asked {
                        requested,
                        fault,
                        ..open
                    },
                );
            }
        }
        add_row(
            rows,
            Asked {
                armed: None,
                ..open
            },
        );
        add_row(
            rows,
            Asked {
                landed: None,
                ..open
            },
        );
    }
}

/// Several things at once, near their limits.
fn drawn(rows: &mut Rows, random: &mut Random) {
    for _ in 0..200 {
        let fresh = random.below(3000) as u32;
        let hold = random.below(6000) as u32;
        let near = |random: &mut Random, limit: u32| {
            (limit + random.below(3) as u32).wrapping_sub(random.below(3) as u32)
        };
        let armed = (near(random, fresh), !random.chance(5));
        let landed = (near(random, fresh), 1);
        let asked = Asked {
            since: if random.chance(4) {
                None
            } else {
                Some(near(random, hold))
            },
            now: random.u32(),
            armed: if random.chance(8) { None } else { Some(armed) },
            landed: if random.chance(8) { None } else { Some(landed) },
            fresh,
            hold,
            requested: if random.chance(6) { random.below(5) } else { 4 },
            fault: random.chance(8),
        };
        add_row(rows, asked);
    }
}

fn resets(rows: &mut Rows) {
    for since in [
        None,
        Some(0),
        Some(1),
        Some(3000),
        Some(HALF),
        Some(u32::MAX),
    ] {
        let mut gate = DisarmGate {
            hold_since_ms: since,
        };
        gate.reset();
        rows.add(Asks::Reset, &option(since), &option(gate.hold_since_ms));
    }
}

pub fn add(rows: &mut Rows, random: &mut Random) {
    one_by_one(rows);
    drawn(rows, random);
    resets(rows);
}
