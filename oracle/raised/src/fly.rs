//! Flights under kind 11, and what they pass through.

use failsafe_open::validate::is_confirmed_disarm;
use failsafe_open::{Action, Decision, Reason, Supervisor, Telemetry};
use flights::{Pilot, Setup, area_body, areas_frame, once_round, ring_near};
use frames::{
    DECISION, DECISION_FRAME, Held, Hold, PAIRS, RAISED_STATE_FRAME, RaisedState, SIDE_FRAME,
    State, TELEMETRY, TELEMETRY_FRAME, answer_to, held_by_pairs, put_frame, read_areas, step_clear,
};
use port::{Call, Entry, Sides};
use random::Random;

use crate::counts::Counts;
use crate::flicker::{self, Flicker};
use crate::kind_eleven;

pub struct Driver {
    pub random: Random,
    pub sides: Sides,
    pub counts: Counts,
    pub steps: u64,
    pub declined: u64,
    pub several: u64,
    pub odd_states: u64,
}

/// What kind 1 does at the same step from the same state: its Decision, and what the pairs have held.
struct KindOne {
    decision: Decision,
    held: [Held; 8],
    altitude_max_cleared: bool,
}

impl KindOne {
    fn of(before: &Supervisor, areas: &[u8], t: &Telemetry) -> Self {
        let mut supervisor = before.clone();
        let areas = read_areas(areas).expect("areas");
        let (decision, _) = step_clear(&mut supervisor, &areas, t);
        let held = held_by_pairs(&supervisor, t, &decision);
        let disarmed = is_confirmed_disarm(t.now_ms, t.armed, &before.cfg);
        if !decision.clock_fault && !disarmed {
            as_the_rust(before, &supervisor, t, &decision, &held);
        }
        let (t_after, c) = (&supervisor.triggers, &supervisor.cfg);
        let met = |timer, ms| Hold { timer, ms }.met(t.now_ms);
        let altitude_max_cleared = decision.position_valid
            && met(t_after.alt_max_set, c.alt_max_set_ms)
            && met(t_after.alt_max_clear, c.alt_max_clear_hold_ms);
        KindOne {
            decision,
            held,
            altitude_max_cleared,
        }
    }

    fn files(&self, reason: Reason) -> bool {
        self.decision.active.reqs[reason.index()].is_some()
    }
}

/// Under kind 1's rule the reference's parts give the Rust's own requests, Decision and state.
fn as_the_rust(
    before: &Supervisor,
    after: &Supervisor,
    t: &Telemetry,
    decision: &Decision,
    held: &[Held; 8],
) {
    for (held, (reason, _)) in held.iter().zip(PAIRS) {
        let filed = decision.active.reqs[reason.index()].is_some();
        assert_eq!(
            filed,
            held.set && !held.clear,
            "{reason:?}: what the pair has held"
        );
    }
    let (mut supervisor, mut answered) = (after.clone(), *decision);
    answer_to(decision.active, before, &mut supervisor, t, &mut answered);
    assert_eq!(
        framed(decision),
        framed(&answered),
        "the answer to the Rust's requests"
    );
    let (rust, ours) = (State::of(after), State::of(&supervisor));
    assert_eq!(
        format!("{rust:?}"),
        format!("{ours:?}"),
        "the state after the Rust's requests"
    );
}

fn framed(decision: &Decision) -> [u8; DECISION_FRAME] {
    let mut frame = [0; DECISION_FRAME];
    put_frame(DECISION, decision, &mut frame);
    frame
}

/// Areas near a place, each of them accepted.
pub fn areas_near(random: &mut Random, t: &Telemetry) -> Vec<u8> {
    let place = t
        .position
        .map_or((90.0, 0.0), |sample| (sample.pos.n, sample.pos.e));
    let mut bodies = Vec::new();
    for number in 1..=random.below(3) as u8 {
        let far = random.one_of(&[0.0, 5.0, 10.0, -1.0]);
        let body = area_body(20 * number, &ring_near(random, place, far));
        if read_areas(&areas_frame(std::slice::from_ref(&body))).is_ok() {
            bodies.push(body);
        }
    }
    areas_frame(&bodies)
}

impl Driver {
    fn setup(&mut self) -> (Setup, Option<Flicker>) {
        let random = &mut self.random;
        if random.chance(4) {
            let setup = Setup::random(random);
            let other = setup.fenced(once_round(setup.fence.clone()));
            return (other.unwrap_or(setup), None);
        }
        (flicker::setup(random), Some(Flicker::new(random)))
    }

    /// One flight, from a fresh state.
    pub fn fly(&mut self, steps: usize) -> Result<(), String> {
        let (setup, mut flicker) = self.setup();
        let mut pilot = Pilot::new(&mut self.random);
        let with_areas = self.random.chance(4);
        let mut call = Call {
            config: setup.config.to_vec(),
            fence: setup.fence.clone(),
            state: vec![0x11; RAISED_STATE_FRAME],
            ..Call::default()
        };
        kind_eleven(&mut call.config);
        self.sides.fresh_raised(&mut call.state)?;
        for _ in 0..steps {
            let old = RaisedState::read_frame(&call.state).expect("a state of kind 12");
            let mut t = pilot.next(&mut self.random, &setup, &old.state);
            if let Some(flicker) = &mut flicker {
                flicker.apply(&mut self.random, &setup.cfg, &mut t);
            }
            self.equip(&mut call, &t, with_areas);
            if self.random.chance(3) {
                self.decline(&call)?;
            }
            if self.random.chance(8) {
                self.odd_state(&call)?;
            }
            let number = self.sides.step_raised(&mut call)?;
            assert_eq!(number, 0, "a step of a flight is declined");
            self.count(&setup, &old, &t, &call);
            self.steps += 1;
        }
        Ok(())
    }

    /// Telemetry, one of the three entries, areas where they belong, and an output.
    fn equip(&mut self, call: &mut Call, t: &Telemetry, with_areas: bool) {
        call.telemetry = vec![0; TELEMETRY_FRAME];
        put_frame(TELEMETRY, t, &mut call.telemetry);
        call.entry = self
            .random
            .one_of(&[Entry::Plain, Entry::Side, Entry::Areas]);
        call.areas.clear();
        if with_areas && call.entry == Entry::Areas {
            call.areas = areas_near(&mut self.random, t);
        }
        let least = match call.entry {
            Entry::Plain => DECISION_FRAME,
            _ => SIDE_FRAME,
        };
        let room = least + self.random.below(3) * 20;
        call.output = (0..room).map(|k| k as u8 ^ 0x5A).collect();
    }

    fn count(&mut self, setup: &Setup, old: &RaisedState, t: &Telemetry, call: &Call) {
        let new = RaisedState::read_frame(&call.state).expect("a state of kind 12");
        let before = old.state.clone().with(setup.cfg, setup.geofence);
        let one = KindOne::of(&before, &call.areas, t);
        let disarmed = is_confirmed_disarm(t.now_ms, t.armed, &setup.cfg);
        let fault = one.decision.clock_fault;
        for (k, (reason, _)) in PAIRS.into_iter().enumerate() {
            let (was, is) = (old.raised[k], new.raised[k]);
            let what = match (disarmed, fault) {
                (true, true) if was => "dropped by a disarm on a fault",
                (true, false) if was => "dropped by a disarm",
                (true, _) => continue,
                (_, true) if is && old.state.backwards_streak == 2 => "kept on a third fault",
                (_, true) if is => "kept on a fault",
                (_, true) => continue,
                _ => {
                    self.count_pair(reason, was, is, one.held[k], one.files(reason));
                    continue;
                }
            };
            self.counts.add(what, format!("{reason:?}"));
        }
        if !disarmed && !fault {
            self.count_others(old, &one, call);
        }
    }

    /// One of the eight at a sound step; `shown` is whether kind 1 files it there.
    fn count_pair(&mut self, reason: Reason, was: bool, is: bool, held: Held, shown: bool) {
        let mut met = |yes: bool, what: &'static str| {
            if yes {
                self.counts.add(what, format!("{reason:?}"));
            }
        };
        met(!was && is, "raised");
        met(is && !shown, "kept where kind 1 shows none");
        met(was && !is, "dropped");
        met(is && held.rested, "kept at rest");
        met(!is && held.rested, "not raised at rest");
        met(
            held.set && held.clear && was,
            "set and clear held, raised before",
        );
        met(
            held.set && held.clear && !was,
            "set and clear held, not raised before",
        );
    }

    fn count_others(&mut self, old: &RaisedState, one: &KindOne, call: &Call) {
        let files = |reason: Reason| call.output[7 + 3 * reason.index()] == 1;
        let mut met = |yes: bool, what: &str| {
            if yes {
                self.counts.add("met", what);
            }
        };
        met(files(Reason::RcLost), "RcLost");
        met(
            !files(Reason::RcLost) && one.files(Reason::RcLost),
            "RcLost that has not held yet",
        );
        met(files(Reason::AltitudeMax), "AltitudeMax");
        met(one.altitude_max_cleared, "AltitudeMax cleared while set");
        let gone = old.state.arbiter.prev_reason == Reason::AltitudeMax;
        met(gone && !files(Reason::AltitudeMax), "AltitudeMax gone");
        let action = call.output[4];
        met(
            action != one.decision.action.rank(),
            "another action than under kind 1",
        );
        met(action < old.state.arbiter.prev_output.rank(), "a step down");
        let land = Action::Land.rank();
        met(
            call.output[6] == land && one.decision.requested.rank() < land,
            "Land for what stays raised",
        );
        met(!call.areas.is_empty(), "areas");
        self.counts.add("action", action);
    }

    pub fn missing(&self) -> Vec<String> {
        let eight = PAIRS.map(|(reason, _)| format!("{reason:?}"));
        let eight = eight.each_ref().map(String::as_str);
        let mut missing = self.missing_numbers();
        for what in [
            "raised",
            "kept where kind 1 shows none",
            "dropped",
            "kept on a fault",
            "kept on a third fault",
            "dropped by a disarm",
            "dropped by a disarm on a fault",
        ] {
            missing.extend(self.counts.missing(what, &eight));
        }
        for what in ["kept at rest", "not raised at rest"] {
            missing.extend(self.counts.missing(what, &eight[3..]));
        }
        // In the other five the two can't hold at once.
        let both = ["FenceBreach", "AltitudeMin", "EnergyRtlMarginal"];
        for what in [
            "set and clear held, raised before",
            "set and clear held, not raised before",
        ] {
            missing.extend(self.counts.missing(what, &both));
        }
        let met = [
            "RcLost",
            "RcLost that has not held yet",
            "AltitudeMax",
            "AltitudeMax gone",
            "AltitudeMax cleared while set",
            "another action than under kind 1",
            "a step down",
            "Land for what stays raised",
            "areas",
        ];
        missing.extend(self.counts.missing("met", &met));
        missing.extend(self.counts.missing("action", &["0", "1", "2", "3", "4"]));
        missing
    }
}
