//! Document 02's L11, case by case, of the plain Rust entries: kinds 11 and 12, and the rule at a threshold.

use failsafe_open::{
    BatteryInputs, Config, GpsFix, GpsSample, LandedState, PositionSample, Stamped, Telemetry, Vec3,
};
use frames::{
    DECISION_FRAME, Form, RAISED_STATE_FRAME, STATE_FRAME, check_entry, fresh_entry,
    fresh_raised_entry, put_frame, step_by, step_raised,
};

struct Flight {
    config: Vec<u8>,
    fence: Vec<u8>,
    state: Vec<u8>,
    output: Vec<u8>,
}

fn config(kind: u16, cfg: &Config) -> Vec<u8> {
    let mut frame = vec![0; 246];
    put_frame(kind, cfg, &mut frame);
    frame
}

fn fence() -> Vec<u8> {
    let mut fence = vec![43, 0, 2, 0, 4];
    for x in [
        5f32, 120.0, -500.0, -500.0, -500.0, 500.0, 500.0, 500.0, 500.0, -500.0,
    ] {
        fence.extend(x.to_le_bytes());
    }
    fence
}

/// Fresh and healthy, 40 m above home.
fn healthy(now: u32) -> Telemetry {
    let yes = Some(Stamped {
        t_ms: now,
        value: true,
    });
    let at = |n, e, d| Vec3 { n, e, d };
    let volts = Some(Stamped {
        t_ms: now,
        value: 16.0,
    });
    Telemetry {
        now_ms: now,
        position: Some(PositionSample {
            t_ms: now,
            pos: at(0.0, 0.0, -40.0),
            vel: at(0.0, 0.0, 0.0),
        }),
        gps: Some(GpsSample {
            t_ms: now,
            fix: GpsFix::Fix3D,
            sats: Some(14),
            hdop: Some(0.9),
        }),
        battery: BatteryInputs {
            voltage_v: volts,
            percent: None,
            remaining_wh: Some(Stamped {
                t_ms: now,
                value: 36.0,
            }),
        },
        gcs_heartbeat_ms: Some(now),
        armed: yes,
        landed: Some(Stamped {
            t_ms: now,
            value: LandedState::InAir,
        }),
        rc_ok: yes,
        ekf_ok: yes,
    }
}

impl Flight {
    fn new(cfg: &Config) -> Self {
        let mut state = vec![0; RAISED_STATE_FRAME];
        assert_eq!(fresh_raised_entry(&mut state), 0);
        Flight {
            config: config(11, cfg),
            fence: fence(),
            state,
            output: vec![0; DECISION_FRAME],
        }
    }

    fn number(&mut self, t: &Telemetry) -> u32 {
        let mut telemetry = vec![0; 106];
        put_frame(3, t, &mut telemetry);
        step_by(
            step_raised,
            Form::Plain,
            &self.config,
            &self.fence,
            &mut self.state,
            &telemetry,
            &mut self.output,
        )
    }

    /// Whether the one of the eight at `byte` is raised after this telemetry, and whether its slot holds a request.
    fn at(&mut self, t: &Telemetry, byte: usize, slot: usize) -> (bool, bool) {
        assert_eq!(self.number(t), 0);
        let raised = self.state[STATE_FRAME + byte] == 1;
        (raised, self.output[7 + 3 * slot] == 1)
    }
}

const YES: (bool, bool) = (true, true);
const NO: (bool, bool) = (false, false);

/// BatteryWarn: its byte and slot. It sets below 30 % for 2000 ms and clears above 33 % for 5000 ms.
const WARN: (usize, usize) = (5, 14);

fn charge(now: u32, percent: f32) -> Telemetry {
    let mut t = healthy(now);
    t.battery.remaining_wh = None;
    t.battery.percent = Some(Stamped {
        t_ms: now,
        value: percent,
    });
    t
}

/// BatteryWarn is raised at 2000.
fn warned() -> Flight {
    let mut flight = Flight::new(&Config {
        energy_marginal_wh: 0.0,
        ..Config::default()
    });
    assert_eq!(flight.at(&charge(0, 29.0), WARN.0, WARN.1), NO);
    assert_eq!(flight.at(&charge(1999, 29.0), WARN.0, WARN.1), NO);
    assert_eq!(flight.at(&charge(2000, 29.0), WARN.0, WARN.1), YES);
    flight
}

#[test]
fn stays_until_clear_has_held() {
    let mut flight = warned();
    let mut at = |now: u32, percent: f32| flight.at(&charge(now, percent), WARN.0, WARN.1);
    assert_eq!(at(2100, 31.0), YES);
    assert_eq!(at(2200, 34.0), YES);
    assert_eq!(at(7199, 34.0), YES);
    assert_eq!(at(7200, 34.0), NO);
    // Below again: not before its set timer has held anew.
    assert_eq!(at(7300, 29.0), NO);
    assert_eq!(at(9299, 29.0), NO);
    assert_eq!(at(9300, 29.0), YES);
    // The clear timer begins anew after each reading that is not above 33 %.
    assert_eq!(at(9400, 34.0), YES);
    assert_eq!(at(14_399, 33.0), YES);
    assert_eq!(at(14_400, 34.0), YES);
    assert_eq!(at(19_399, 34.0), YES);
    assert_eq!(at(19_400, 34.0), NO);
}

#[test]
fn absent_readings_and_faults_keep_it() {
    let mut flight = warned();
    let mut absent = charge(2100, 0.0);
    absent.battery.percent = None;
    assert_eq!(flight.at(&absent, WARN.0, WARN.1), YES);
    // Refused by the bounds.
    assert_eq!(flight.at(&charge(2200, 101.0), WARN.0, WARN.1), YES);
    // Three faults: kept, and not filed.
    for _ in 0..3 {
        assert_eq!(flight.at(&charge(100, 34.0), WARN.0, WARN.1), (true, false));
        assert_eq!(flight.output[7 + 3], 1, "ClockFault");
    }
    assert_eq!(flight.at(&charge(2300, 31.0), WARN.0, WARN.1), YES);
    // A clear timer that rests does not drop, though its hold has gone by; the next reading does.
    assert_eq!(flight.at(&charge(2400, 34.0), WARN.0, WARN.1), YES);
    absent.now_ms = 8000;
    assert_eq!(flight.at(&absent, WARN.0, WARN.1), YES);
    assert_eq!(flight.at(&charge(8100, 34.0), WARN.0, WARN.1), NO);
}

#[test]
fn a_disarm_drops_all() {
    let disarmed = |now: u32| {
        let mut t = charge(now, 29.0);
        t.armed = Some(Stamped {
            t_ms: now,
            value: false,
        });
        t
    };
    for now in [2100, 1000] {
        let mut flight = warned();
        flight.state[STATE_FRAME..].fill(1);
        assert_eq!(flight.number(&disarmed(now)), 0);
        assert_eq!(flight.state[STATE_FRAME..], [0; 8]);
        assert_eq!(flight.output[4], 0);
        assert_eq!(flight.output[65], (now == 1000) as u8, "the clock fault");
    }
}

#[test]
fn rc_lost_waits() {
    let mut flight = Flight::new(&Config::default());
    let mut at = |now: u32, rc: bool| {
        let mut t = healthy(now);
        t.rc_ok = t.rc_ok.filter(|_| rc);
        assert_eq!(flight.number(&t), 0);
        flight.output[7 + 3 * 5] == 1
    };
    assert!(!at(0, true) && !at(100, false) && !at(1099, false));
    assert!(at(1100, false) && at(1101, false) && !at(1102, true));
    // Beyond 2^31 the hold is unmet again.
    assert!(!at(1103, false) && at(2103, false));
    assert!(at(1103 + 0x7FFF_FFFF, false) && !at(1104 + 0x7FFF_FFFF, false));
}

#[test]
fn set_wins_over_clear() {
    // A margin above 4 and below 5 Wh is marginal and clear at once.
    let mut flight = Flight::new(&Config {
        energy_marginal_clear_wh: 4.0,
        energy_marginal_set_ms: 0,
        energy_marginal_clear_ms: 0,
        ..Config::default()
    });
    let mut t = healthy(0);
    t.position.as_mut().expect("a position").pos.d = 0.0;
    t.battery.remaining_wh.as_mut().expect("a reading").value = 15.75;
    assert_eq!(flight.at(&t, 7, 17), YES);
    assert_eq!(flight.at(&t, 7, 17), YES);
}

#[test]
fn kinds_and_refusals() {
    let judged = |change: &dyn Fn(&mut Flight)| {
        let mut flight = Flight::new(&Config::default());
        change(&mut flight);
        let (state, output) = (flight.state.clone(), flight.output.clone());
        let number = flight.number(&healthy(0));
        if number != 0 {
            assert_eq!((state, output), (flight.state, flight.output));
        }
        number
    };
    let kind_five = |f: &mut Flight| {
        f.state.truncate(STATE_FRAME);
        assert_eq!(fresh_entry(&mut f.state), 0);
    };
    let kind_one = |f: &mut Flight| f.config[2] = 1;
    assert_eq!(judged(&|_| {}), 0);
    assert_eq!(judged(&kind_five), 2);
    assert_eq!(judged(&kind_one), 2);
    assert_eq!(
        judged(&|f| {
            kind_one(f);
            kind_five(f);
        }),
        0
    );
    for byte in STATE_FRAME..RAISED_STATE_FRAME {
        assert_eq!(judged(&|f| f.state[byte] = 1), 0);
        assert_eq!(judged(&|f| f.state[byte] = 2), 4);
    }
    assert_eq!(judged(&|f| f.state[2] = 10), 2);
    assert_eq!(judged(&|f| f.state[0] = 193), 1);
    assert_eq!(judged(&|f| f.state[0] = 191), 3);
    assert_eq!(judged(&|f| f.state.push(0)), 3);
    assert_eq!(judged(&|f| f.state.truncate(193)), 1);
    assert_eq!(judged(&|f| f.state[126] = 2), 4);
    assert_eq!(judged(&|f| f.output.truncate(94)), 5);
    // The configuration's rules are the same, and come before the state.
    assert_eq!(
        judged(&|f| {
            f.config[4] = 0;
            f.state.clear();
        }),
        25
    );
    assert_eq!(judged(&|f| f.config[9] = 2), 4);
    assert_eq!(check_entry(&config(11, &Config::default()), &fence()), 0);
    assert_eq!(check_entry(&config(12, &Config::default()), &fence()), 2);
    for (len, wanted) in [(0, 5), (186, 5), (193, 5), (194, 0), (200, 0)] {
        let mut state = vec![0xEE; len];
        assert_eq!(fresh_raised_entry(&mut state), wanted);
        let from = if wanted == 0 { RAISED_STATE_FRAME } else { 0 };
        assert!(state[from..].iter().all(|&byte| byte == 0xEE));
    }
}
