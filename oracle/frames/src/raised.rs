//! Document 02, L11, in plain Rust: requests that stay raised under a configuration of kind 11, and the state of kind 12.
//!
//! The Rust's own step moves every timer and gives all that the requests do not touch. What each pair of timers has held is
//! then read from the Rust's timers as that step left them; the eight requests and RcLost are filed anew by the rule, and the
//! Rust's own arbiter and disarm gate answer to them from the state before the step. Under kind 1's rule this is the Rust's
//! step bit for bit, which oracle/raised tries.

use failsafe_open as rust;
use rust::arbiter::latches_active;
use rust::triggers::Timer;
use rust::validate::{fresh_battery_percent, fresh_remaining_wh, is_confirmed_disarm};
use rust::{Action, ActiveSet, Reason, age_ms};

use crate::bytes::{BAD_VALUE, read_frame, record, write_frame};
use crate::state::State;

pub const CONFIG_RAISED: u16 = 11;
pub const STATE_RAISED: u16 = 12;

/// The eight, in the order of the state's bytes, each with what it asks for.
pub const PAIRS: [(Reason, Action); 8] = [
    (Reason::GpsDegraded, Action::Warn),
    (Reason::GpsLost, Action::Land),
    (Reason::EkfUnhealthy, Action::Land),
    (Reason::FenceBreach, Action::ReturnToLaunch),
    (Reason::AltitudeMin, Action::Warn),
    (Reason::BatteryWarn, Action::Warn),
    (Reason::BatteryLow, Action::ReturnToLaunch),
    (Reason::EnergyRtlMarginal, Action::ReturnToLaunch),
];

/// Which of the eight are raised.
pub type Raised = [bool; 8];

/// Kind 12.
#[derive(Clone, Debug)]
pub struct RaisedState {
    pub state: State,
    pub raised: Raised,
}
record!(RaisedState {
    state: State,
    raised: Raised,
});

impl RaisedState {
    pub fn fresh() -> Self {
        RaisedState {
            state: State::fresh(),
            raised: Raised::default(),
        }
    }

    #[inline]
    pub fn read_frame(frame: &[u8]) -> Result<Self, u32> {
        let held: RaisedState = read_frame(STATE_RAISED, frame)?;
        if held.state.fits() {
            Ok(held)
        } else {
            Err(BAD_VALUE)
        }
    }
}

/// Writes a fresh state of kind 12 into the first 194 bytes; later bytes stay.
pub fn fresh_raised_entry(state: &mut [u8]) -> u32 {
    const { assert!(<RaisedState as crate::Field>::WIDTH + 4 == crate::RAISED_STATE_FRAME) }
    let done = write_frame(STATE_RAISED, &RaisedState::fresh(), state);
    done.err().unwrap_or(0)
}

// ---- pairs of timers

/// A timer and how long it has to hold.
#[derive(Clone, Copy)]
pub struct Hold {
    pub timer: Timer,
    pub ms: u32,
}

impl Hold {
    /// The timer as a step that moved it left it: has it held?
    pub fn met(self, now: u32) -> bool {
        let age = self.timer.since_ms.and_then(|since| age_ms(now, since));
        age.is_some_and(|age| age >= self.ms)
    }
}

/// The set and the clear timer of each of the eight.
pub fn pairs(t: &rust::TriggerState, c: &rust::Config) -> [(Hold, Hold); 8] {
    let hold = |timer: Timer, ms: u32| Hold { timer, ms };
    [
        (
            hold(t.gps_deg_set, c.gps_degraded_set_ms),
            hold(t.gps_deg_clear, c.gps_degraded_clear_ms),
        ),
        (
            hold(t.gps_lost_set, c.gps_lost_set_ms),
            hold(t.gps_lost_clear, c.gps_lost_clear_ms),
        ),
        (
            hold(t.ekf_set, c.ekf_unhealthy_set_ms),
            hold(t.ekf_clear, c.ekf_unhealthy_clear_ms),
        ),
        (
            hold(t.fence_breach_set, c.fence_breach_set_ms),
            hold(t.fence_breach_clear, c.fence_breach_clear_ms),
        ),
        (
            hold(t.alt_min_set, c.alt_min_set_ms),
            hold(t.alt_min_clear, c.alt_min_clear_ms),
        ),
        (
            hold(t.bat_warn_set, c.battery_warn_set_ms),
            hold(t.bat_warn_clear, c.battery_warn_clear_ms),
        ),
        (
            hold(t.bat_low_set, c.battery_low_set_ms),
            hold(t.bat_low_clear, c.battery_low_clear_ms),
        ),
        (
            hold(t.energy_marg_set, c.energy_marginal_set_ms),
            hold(t.energy_marg_clear, c.energy_marginal_clear_ms),
        ),
    ]
}

/// What a pair of timers has held at a step.
#[derive(Clone, Copy, Debug, PartialEq)]
pub struct Held {
    pub set: bool,
    pub clear: bool,
    /// The step moved neither timer: there was no valid position, no charge or no margin.
    pub rested: bool,
}

/// Which pairs a sound step moves.
fn moved(
    supervisor: &rust::Supervisor,
    raw: &rust::Telemetry,
    decision: &rust::Decision,
) -> [bool; 8] {
    let c = &supervisor.cfg;
    let kept = rust::validate_telemetry(raw, c, &supervisor.fence).telemetry;
    let place = decision.position_valid;
    let charge = fresh_battery_percent(raw.now_ms, &kept.battery, c).is_some();
    let remaining = fresh_remaining_wh(raw.now_ms, &kept.battery, c).is_some();
    // A position that validation and the filter left gives the Decision its distance.
    let margin = decision.fence_dist_m.is_some() && remaining;
    [true, true, true, place, place, charge, charge, margin]
}

/// What the eight have held, after the Rust's sound step.
pub fn held_by_pairs(
    supervisor: &rust::Supervisor,
    raw: &rust::Telemetry,
    decision: &rust::Decision,
) -> [Held; 8] {
    let moved = moved(supervisor, raw, decision);
    let pairs = pairs(&supervisor.triggers, &supervisor.cfg);
    std::array::from_fn(|k| {
        let (set, clear) = pairs[k];
        Held {
            set: moved[k] && set.met(raw.now_ms),
            clear: moved[k] && clear.met(raw.now_ms),
            rested: !moved[k],
        }
    })
}

// ---- a step

/// Document 02: raised before and not cleared there, or its set timer has held there.
pub fn raised_by(before: bool, held: Held) -> bool {
    held.set || (before && !held.clear)
}

pub fn file(active: &mut ActiveSet, (reason, action): (Reason, Action), raised: bool) {
    if raised {
        active.set(reason, action);
    } else {
        active.clear(reason);
    }
}

/// What the Rust's sound step answers to these requests: its arbiter and its disarm gate, from the state before the step.
pub fn answer_to(
    active: ActiveSet,
    before: &rust::Supervisor,
    supervisor: &mut rust::Supervisor,
    raw: &rust::Telemetry,
    decision: &mut rust::Decision,
) {
    let (now, c) = (raw.now_ms, supervisor.cfg);
    let (requested, reason) = active.requested_action();
    let latched = latches_active(&active, &supervisor.triggers);
    let (wanted, named) =
        rust::output_with_latches(requested, reason, &active, &supervisor.triggers);
    let mut arbiter = before.arbiter;
    let persist = rust::apply_persistence(
        &mut arbiter,
        now,
        &c,
        wanted,
        named,
        latched,
        false,
        false,
        false,
    );
    let (action, reason) =
        rust::apply_feasibility(persist.action, persist.reason, decision.position_valid);
    if action != persist.action {
        arbiter.recovery_since_ms = None;
    }
    (arbiter.prev_output, arbiter.prev_reason) = (action, reason);
    supervisor.arbiter = arbiter;
    supervisor.disarm = before.disarm;
    decision.disarm_eligible = supervisor.disarm.evaluate(now, raw, &c, requested, false);
    (decision.action, decision.reason) = (action, reason);
    (decision.requested, decision.active) = (requested, active);
}

/// A step under kind 11.
pub fn step_raised(
    supervisor: &mut rust::Supervisor,
    raised: &mut Raised,
    raw: &rust::Telemetry,
) -> rust::Decision {
    let before = supervisor.clone();
    let mut decision = supervisor.step(raw);
    if is_confirmed_disarm(raw.now_ms, raw.armed, &supervisor.cfg) {
        *raised = Raised::default();
        return decision;
    }
    if decision.clock_fault {
        return decision;
    }
    let mut active = decision.active;
    let held = held_by_pairs(supervisor, raw, &decision);
    for (k, pair) in PAIRS.into_iter().enumerate() {
        raised[k] = raised_by(raised[k], held[k]);
        file(&mut active, pair, raised[k]);
    }
    let rc = Hold {
        timer: supervisor.triggers.rc_lost_set,
        ms: supervisor.cfg.rc_lost_set_ms,
    };
    file(
        &mut active,
        (Reason::RcLost, Action::ReturnToLaunch),
        rc.met(raw.now_ms),
    );
    answer_to(active, &before, supervisor, raw, &mut decision);
    decision
}
