//! A step under kind 11 with a slip in document 02's rule, by CUTHRANSI_FAULT: the driver has to see each of them. The due
//! step comes first; what the slip makes otherwise is then put in its place.

use failsafe_open::arbiter::ArbiterState;
use failsafe_open::validate::is_confirmed_disarm;
use failsafe_open::{Action, ActiveSet, Decision, Reason, Supervisor, Telemetry};
use frames::{Held, Hold, PAIRS, Raised, answer_to, file, held_by_pairs, pairs, step_raised};

const RC_LOST: (Reason, Action) = (Reason::RcLost, Action::ReturnToLaunch);
const ALTITUDE_MAX: (Reason, Action) = (Reason::AltitudeMax, Action::ReturnToLaunch);

pub fn step(
    fault: u32,
    supervisor: &mut Supervisor,
    raised: &mut Raised,
    raw: &Telemetry,
) -> Decision {
    let (before, was) = (supervisor.clone(), *raised);
    let mut decision = step_raised(supervisor, raised, raw);
    if is_confirmed_disarm(raw.now_ms, raw.armed, &supervisor.cfg) {
        disarmed(fault, &was, raised, &decision);
        return decision;
    }
    if decision.clock_fault {
        faulted(fault, &before, raised, &mut decision);
        return decision;
    }
    let held = held_by_pairs(supervisor, raw, &decision);
    let pairs = pairs(&supervisor.triggers, &supervisor.cfg);
    let mut active = decision.active;
    for k in 0..8 {
        let due = raised[k];
        raised[k] = slipped(fault, was[k], due, held[k], pairs[k], raw.now_ms);
        // Not filed while the pair rests.
        let hidden = fault == 26 && held[k].rested;
        file(&mut active, PAIRS[k], raised[k] && !hidden);
    }
    others(fault, &before, supervisor, raw, &decision, &mut active);
    let mut plain = before.clone();
    let of_kind_one = plain.step(raw);
    if fault == 34 {
        // Action and disarm gate answer to kind 1's requests.
        answer_to(of_kind_one.active, &before, supervisor, raw, &mut decision);
        decision.active = active;
        return decision;
    }
    answer_to(active, &before, supervisor, raw, &mut decision);
    if fault == 35 {
        // The disarm gate alone does.
        supervisor.disarm = plain.disarm;
        decision.disarm_eligible = of_kind_one.disarm_eligible;
    }
    decision
}

/// A confirmed disarm that keeps what is raised: on a faulted step, or on a sound one.
fn disarmed(fault: u32, was: &Raised, raised: &mut Raised, decision: &Decision) {
    let keeps = match fault {
        22 => decision.clock_fault,
        23 => !decision.clock_fault,
        _ => false,
    };
    if keeps {
        *raised = *was;
    }
}

fn faulted(fault: u32, before: &Supervisor, raised: &mut Raised, decision: &mut Decision) {
    match fault {
        // A fault drops what is raised, or only every third one does.
        21 => *raised = Raised::default(),
        24 if before.backwards_streak == 2 => *raised = Raised::default(),
        // What is raised is filed beside ClockFault.
        37 => {
            for (pair, _) in PAIRS.into_iter().zip(*raised).filter(|(_, raised)| *raised) {
                file(&mut decision.active, pair, true);
            }
        }
        _ => {}
    }
}

/// Whether one of the eight is raised, where `due` is what the rule says.
fn slipped(fault: u32, was: bool, due: bool, held: Held, pair: (Hold, Hold), now: u32) -> bool {
    let (set, clear) = pair;
    match fault {
        // Clear wins over set.
        20 => (held.set || was) && !held.clear,
        // A pair that rests drops, or its set timer raises, or its clear timer drops.
        25 => due && !held.rested,
        27 => due || held.rested && set.met(now),
        28 => due && !(held.rested && clear.met(now)),
        // Only kind 1's rule.
        29 => held.set && !held.clear,
        // What is raised stays as long as its set timer runs.
        36 => due || was && !held.rested && set.timer.since_ms.is_some(),
        // A set timer has held beyond 2^31.
        38 => {
            due || !held.rested
                && set
                    .timer
                    .since_ms
                    .is_some_and(|since| now.wrapping_sub(since) >= set.ms)
        }
        _ => due,
    }
}

/// RcLost and AltitudeMax.
fn others(
    fault: u32,
    before: &Supervisor,
    supervisor: &mut Supervisor,
    raw: &Telemetry,
    decision: &Decision,
    active: &mut ActiveSet,
) {
    let (t, c) = (&mut supervisor.triggers, &supervisor.cfg);
    let ArbiterState { prev_reason, .. } = before.arbiter;
    let set = Hold {
        timer: t.alt_max_set,
        ms: c.alt_max_set_ms,
    };
    let cleared = Hold {
        timer: t.rc_clear_timer,
        ms: c.rc_lost_clear_ms,
    };
    match fault {
        // AltitudeMax stays while it is what is shown; or is filed where both of its timers have held.
        30 if prev_reason == Reason::AltitudeMax => file(active, ALTITUDE_MAX, true),
        31 if decision.position_valid && set.met(raw.now_ms) => file(active, ALTITUDE_MAX, true),
        // RcLost from the first bad step, or until its clear timer has held.
        32 if t.rc_lost_set.since_ms.is_some() => file(active, RC_LOST, true),
        33 if prev_reason == Reason::RcLost && !cleared.met(raw.now_ms) => {
            file(active, RC_LOST, true)
        }
        // The RC clear timer is left alone.
        39 => t.rc_clear_timer = before.triggers.rc_clear_timer,
        _ => {}
    }
}
