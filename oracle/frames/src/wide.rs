//! Document 02, L7, in plain Rust: instants of 64 bits. A step is that of failsafe-wide, the Rust's own source with its instants
//! widened; kinds 9 and 10 are kinds 3 and 5 with each instant in eight bytes; and a state of kind 5 is carried over.

use failsafe_wide as rust;

use failsafe_open as open;

use crate::areas::{AREA_SIDE, Clearance, read_areas, stand_in_config, stand_in_fence};
use crate::bytes::{Field, NO_ROOM, put_frame, read_frame, write_frame};
use crate::codec::{CONFIG, DECISION};
use crate::entry::{Form, flight, step_by};
use crate::raised::{CONFIG_RAISED, step_raised};
use crate::side::{put_side, side_at};
use crate::state::{State, WideState};
use crate::{DECISION_FRAME, SIDE_FRAME, WIDE_STATE_FRAME};

pub const TELEMETRY_WIDE: u16 = 9;
pub const STATE_WIDE: u16 = 10;
/// Ages on the 32-bit clock are below it.
const HALF: u32 = 1 << 31;

impl WideState {
    /// What the widened `Supervisor::new` begins with.
    pub fn fresh() -> Self {
        let fence = rust::default_fence().expect("the default fence is accepted");
        let new = rust::Supervisor::new(rust::Config::default(), fence);
        WideState::of(&new.expect("the defaults are accepted"))
    }
}

/// Writes a fresh state of kind 10 into the first 306 bytes; later bytes stay.
pub fn fresh_wide_entry(state: &mut [u8]) -> u32 {
    const { assert!(<WideState as Field>::WIDTH + 4 == WIDE_STATE_FRAME) }
    const { assert!(<rust::Telemetry as Field>::WIDTH + 4 == crate::WIDE_TELEMETRY_FRAME) }
    let done = write_frame(STATE_WIDE, &WideState::fresh(), state);
    done.err().unwrap_or(0)
}

/// A value of one build of the Rust as the other's, by its bytes. It has no instant.
fn carried<A: Field, B: Field>(value: &A) -> B {
    let mut bytes = vec![0; A::WIDTH];
    value.write(&mut bytes);
    B::read(&bytes).expect("the same bytes")
}

fn wide_fence(fence: &open::Geofence) -> rust::Geofence {
    let point = |p: open::Point2| rust::Point2 { n: p.n, e: p.e };
    rust::Geofence {
        poly: rust::ConvexPolygon {
            verts: fence.poly.verts.map(point),
            len: fence.poly.len,
        },
        max_alt_m: fence.max_alt_m,
        min_alt_m: fence.min_alt_m,
    }
}

// ---- a step

/// Configuration frame, fence frame, fence rules, configuration rules, areas, state, telemetry, output, with a state of kind 10.
fn step_wide(
    form: Form,
    config: &[u8],
    fence: &[u8],
    state: &mut [u8],
    telemetry: &[u8],
    output: &mut [u8],
) -> Result<(), u32> {
    let (open_cfg, open_fence) = flight(CONFIG, config, fence)?;
    let (room, areas) = match form {
        Form::Plain => (DECISION_FRAME, None),
        Form::Side => (SIDE_FRAME, None),
        Form::Areas(frame) => (SIDE_FRAME, Some(read_areas(frame)?)),
    };
    let held = WideState::read_frame(state)?;
    let raw: rust::Telemetry = read_frame(TELEMETRY_WIDE, telemetry)?;
    if output.len() < room {
        return Err(NO_ROOM);
    }
    let mut cfg: rust::Config = read_frame(CONFIG, config)?;
    let mut fence = wide_fence(&open_fence);
    let place = raw.position.map(|sample| open::Point2 {
        n: sample.pos.n,
        e: sample.pos.e,
    });
    // Beside areas the step is under a fence and limits that give the clearance's answers, as in areas.rs.
    let nearest = areas.and_then(|areas| Some(areas.clearance(&open_fence, place?)));
    if let Some(Clearance { m, .. }) = nearest {
        let limits = stand_in_config(&open_cfg, m);
        cfg.fence_approach_m = limits.fence_approach_m;
        cfg.fence_breach_clear_m = limits.fence_breach_clear_m;
        fence = wide_fence(&stand_in_fence(&open_fence, m));
    }
    let mut supervisor = held.with(cfg, fence);
    let mut decision = supervisor.step(&raw);
    let nearest = nearest.filter(|_| decision.fence_dist_m.is_some());
    if let Some(Clearance { m, .. }) = nearest {
        decision.fence_dist_m = Some(m);
    }
    put_frame(STATE_WIDE, &WideState::of(&supervisor), state);
    put_frame(DECISION, &decision, output);
    if room == SIDE_FRAME {
        let side = match nearest {
            Some(Clearance { of_area: true, .. }) => AREA_SIDE,
            _ => side_at(&open_fence, place, decision.fence_dist_m),
        };
        put_side(side, output);
    }
    Ok(())
}

/// A step of any form with frames of any kind. Beside a configuration of kind 1 the state's kind says which clock it is. Inline, so that
/// the plain entries, which are timed, have no second caller beside them.
#[inline]
pub fn step_any(
    form: Form,
    config: &[u8],
    fence: &[u8],
    state: &mut [u8],
    telemetry: &[u8],
    output: &mut [u8],
) -> u32 {
    let is = |frame: &[u8], kind: u16| frame.get(2..4) == Some(&kind.to_le_bytes());
    if is(state, STATE_WIDE) && !is(config, CONFIG_RAISED) {
        let done = step_wide(form, config, fence, state, telemetry, output);
        return done.err().unwrap_or(0);
    }
    step_by(step_raised, form, config, fence, state, telemetry, output)
}

// ---- from the 32-bit clock

/// A 32-bit clock that reads `last`, and the same reading in 64 bits.
struct Clocks {
    last: u32,
    t: u64,
}

impl Clocks {
    /// T minus the instant's wrapping age, where it has one that is not above T.
    fn instant(&self, then: u32) -> Option<u64> {
        let age = self.last.wrapping_sub(then);
        let age = Some(age).filter(|&age| age < HALF)?;
        self.t.checked_sub(age.into())
    }

    fn held(&self, then: Option<u32>) -> Result<Option<u64>, u32> {
        match then {
            Some(then) => self.instant(then).map(Some).ok_or(35),
            None => Ok(None),
        }
    }

    fn timer(&self, timer: open::triggers::Timer) -> Result<rust::triggers::Timer, u32> {
        let since_ms = self.held(timer.since_ms)?;
        Ok(rust::triggers::Timer { since_ms })
    }

    fn triggers(&self, t: &open::TriggerState) -> Result<rust::TriggerState, u32> {
        Ok(rust::TriggerState {
            battery_critical_latched: t.battery_critical_latched,
            energy_infeasible_latched: t.energy_infeasible_latched,
            gcs_clear_timer: self.timer(t.gcs_clear_timer)?,
            rc_clear_timer: self.timer(t.rc_clear_timer)?,
            gps_deg_set: self.timer(t.gps_deg_set)?,
            gps_deg_clear: self.timer(t.gps_deg_clear)?,
            gps_lost_set: self.timer(t.gps_lost_set)?,
            gps_lost_clear: self.timer(t.gps_lost_clear)?,
            ekf_set: self.timer(t.ekf_set)?,
            ekf_clear: self.timer(t.ekf_clear)?,
            fence_breach_set: self.timer(t.fence_breach_set)?,
            fence_breach_clear: self.timer(t.fence_breach_clear)?,
            alt_max_set: self.timer(t.alt_max_set)?,
            alt_max_clear: self.timer(t.alt_max_clear)?,
            alt_min_set: self.timer(t.alt_min_set)?,
            alt_min_clear: self.timer(t.alt_min_clear)?,
            stale_bat_clear: self.timer(t.stale_bat_clear)?,
            bat_warn_set: self.timer(t.bat_warn_set)?,
            bat_warn_clear: self.timer(t.bat_warn_clear)?,
            bat_low_set: self.timer(t.bat_low_set)?,
            bat_low_clear: self.timer(t.bat_low_clear)?,
            bat_crit_set: self.timer(t.bat_crit_set)?,
            energy_marg_set: self.timer(t.energy_marg_set)?,
            energy_marg_clear: self.timer(t.energy_marg_clear)?,
            energy_infeas_set: self.timer(t.energy_infeas_set)?,
            invalid_clear: self.timer(t.invalid_clear)?,
            invalid_active: t.invalid_active,
            rc_lost_set: self.timer(t.rc_lost_set)?,
            gcs_stage: t.gcs_stage,
        })
    }

    fn sample(&self, sample: open::PositionSample) -> Result<rust::PositionSample, u32> {
        Ok(rust::PositionSample {
            t_ms: self.instant(sample.t_ms).ok_or(35u32)?,
            pos: carried(&sample.pos),
            vel: carried(&sample.vel),
        })
    }
}

/// 34 where T is not the last sound reading, then 35 where a held instant other than the epoch has no age or one above T.
fn widened(old: &State, t: u64) -> Result<WideState, u32> {
    let last = old.last_now.filter(|&last| last == t as u32).ok_or(34u32)?;
    let clocks = Clocks { last, t };
    Ok(WideState {
        triggers: clocks.triggers(&old.triggers)?,
        arbiter: rust::ArbiterState {
            prev_output: carried(&old.arbiter.prev_output),
            prev_reason: carried(&old.arbiter.prev_reason),
            recovery_since_ms: clocks.held(old.arbiter.recovery_since_ms)?,
        },
        disarm: rust::DisarmGate {
            hold_since_ms: clocks.held(old.disarm.hold_since_ms)?,
        },
        glitch: rust::GlitchState {
            last_accepted: match old.glitch.last_accepted {
                Some(sample) => Some(clocks.sample(sample)?),
                None => None,
            },
            reject_streak: old.glitch.reject_streak,
        },
        last_now: Some(t),
        epoch_start: clocks.instant(old.epoch_start).unwrap_or(t),
        backwards_streak: old.backwards_streak,
        initialized: old.initialized,
    })
}

/// The state of kind 5 carried over into the first 306 bytes of `new`; later bytes stay.
pub fn widen_entry(old: &[u8], t: u64, new: &mut [u8]) -> u32 {
    let done = State::read_frame(old)
        .and_then(|old| widened(&old, t))
        .and_then(|wide| write_frame(STATE_WIDE, &wide, new));
    done.err().unwrap_or(0)
}
