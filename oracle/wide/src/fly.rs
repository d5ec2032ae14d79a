//! Flights on the 64-bit clock, and what they pass through.

use flights::{Pilot, Setup, area_body, areas_frame, once_round, ring_near};
use frames::places::{
    RECOVERY, STATE_INSTANTS, TELEMETRY_INSTANTS, instant, narrowed, wide_byte, wide_place,
};
use frames::{DECISION_FRAME, SIDE_FRAME, State, WIDE_STATE_FRAME, read_areas};
use port::{Call, Entry, Sides};
use random::Random;

use crate::clock::{self, HALF, WHOLE, by_place};
use crate::counts::Counts;

pub struct Driver {
    pub random: Random,
    pub sides: Sides,
    pub counts: Counts,
    pub steps: u64,
    pub declined: u64,
    pub several: u64,
    pub odd_states: u64,
    pub carried: u64,
    pub beside: u64,
    /// The 64-bit side of flights on both clocks is the reference alone.
    pub reference: bool,
}

/// Places in a Decision.
const ACTION: usize = 4;
const CLOCK_FAULT: usize = 65;
/// The row of faults in a state of kind 5.
const STREAK: usize = 184;
const SHOWN: usize = 133;

pub fn state_byte(state: &[u8], at: usize) -> u8 {
    state[wide_byte(&STATE_INSTANTS, at)]
}

/// An area near a place, where it is accepted.
fn areas_near(random: &mut Random, place: (f32, f32)) -> Vec<u8> {
    let far = random.one_of(&[0.0, 5.0, 10.0, -1.0]);
    let frame = areas_frame(&[area_body(7, &ring_near(random, place, far))]);
    if read_areas(&frame).is_ok() {
        frame
    } else {
        Vec::new()
    }
}

impl Driver {
    pub fn setup(&mut self) -> Setup {
        let random = &mut self.random;
        let setup = Setup::random(random);
        let setup = match setup.fenced(once_round(setup.fence.clone())) {
            Some(other) if random.chance(4) => other,
            _ => setup,
        };
        if random.chance(2) {
            setup.with_long_durations(random)
        } else {
            setup
        }
    }

    /// One flight, from a fresh state.
    pub fn fly(&mut self, steps: usize) -> Result<(), String> {
        let setup = self.setup();
        let mut pilot = Pilot::wide(&mut self.random);
        let with_areas = self.random.chance(4);
        let mut call = Call {
            config: setup.config.to_vec(),
            fence: setup.fence.clone(),
            state: vec![0x11; WIDE_STATE_FRAME],
            ..Call::default()
        };
        self.sides.fresh_wide(&mut call.state)?;
        for _ in 0..steps {
            let narrow = State::read_frame(&narrowed(&call.state)).expect("a state of kind 10");
            let t = pilot.next(&mut self.random, &setup, &narrow);
            let random = &mut self.random;
            let now = clock::reading(random, &setup, &call.state, &narrow, t.now_ms);
            call.telemetry = clock::telemetry(random, &t, now);
            let place = t.position.map_or((90.0, 0.0), |s| (s.pos.n, s.pos.e));
            self.equip(&mut call, with_areas.then_some(place));
            if self.random.chance(3) {
                self.decline(&call)?;
            }
            if self.random.chance(8) {
                self.odd_state(&call)?;
            }
            let old = call.state.clone();
            let number = self.sides.step_wide(&mut call)?;
            assert_eq!(number, 0, "a step of a flight is declined");
            self.count(&setup, &old, &call);
            self.steps += 1;
        }
        Ok(())
    }

    /// One of the three entries, areas where they belong, and an output.
    pub fn equip(&mut self, call: &mut Call, place: Option<(f32, f32)>) {
        let random = &mut self.random;
        call.entry = random.one_of(&[Entry::Plain, Entry::Side, Entry::Areas]);
        call.areas.clear();
        if let Some(place) = place
            && call.entry == Entry::Areas
        {
            call.areas = areas_near(random, place);
        }
        let least = match call.entry {
            Entry::Plain => DECISION_FRAME,
            _ => SIDE_FRAME,
        };
        let room = least + random.below(3) * 20;
        call.output = (0..room).map(|k| k as u8 ^ 0x5A).collect();
    }

    fn count(&mut self, setup: &Setup, old: &[u8], call: &Call) {
        let now = instant(&call.telemetry, 4);
        self.count_stamps(now, &call.telemetry);
        let last = clock::last_now(old);
        let begun = state_byte(old, 185) == 1;
        let fault = call.output[CLOCK_FAULT] == 1;
        let disarmed = disarmed(setup, &call.telemetry);
        let mut met = |yes: bool, what: &str| {
            if yes {
                self.counts.add("met", what);
            }
        };
        met(fault, "a fault");
        met(fault && last - now >= HALF, "a fault by 2^31 or more");
        met(fault && last - now >= WHOLE, "a fault by 2^32 or more");
        met(fault && state_byte(old, STREAK) == 2, "a third fault");
        met(
            !fault && begun && now - last >= HALF,
            "a gap of 2^31 or more",
        );
        met(
            !fault && begun && now - last >= WHOLE,
            "a gap of 2^32 or more",
        );
        met(disarmed && !fault, "a disarm");
        met(disarmed && fault, "a disarm on a fault");
        met(now > WHOLE, "a reading above 2^32");
        met(now > 1 << 62, "a reading above 2^62");
        met(!call.areas.is_empty(), "areas");
        let shown = state_byte(old, SHOWN);
        if call.output[ACTION] < shown && !disarmed {
            let at = wide_place(&STATE_INSTANTS, RECOVERY);
            let quiet = now.saturating_sub(instant(old, at));
            let long = old[at - 1] == 1 && quiet >= HALF;
            met(true, "a step down");
            met(long, "a step down after 2^31 or more");
        }
        self.counts.add("action", call.output[ACTION]);
        if !fault && !disarmed {
            self.count_holds(setup, old, call, now);
        }
    }

    /// Stamps by their age.
    fn count_stamps(&mut self, now: u64, telemetry: &[u8]) {
        for number in 1..TELEMETRY_INSTANTS.len() {
            let at = wide_place(&TELEMETRY_INSTANTS, number);
            let what = match (telemetry[at - 1], now.checked_sub(instant(telemetry, at))) {
                (0, _) => "absent",
                (_, None) => "ahead",
                (_, Some(WHOLE..)) => "of 2^32 or more",
                (_, Some(HALF..)) => "of 2^31 or more",
                _ => continue,
            };
            self.counts.add("age", what);
        }
    }

    /// Holds of 2^31 or more that a sound step looks at: met, and not yet met.
    fn count_holds(&mut self, setup: &Setup, old: &[u8], call: &Call, now: u64) {
        let narrow = State::read_frame(&narrowed(old)).expect("a state of kind 10");
        for (number, hold) in by_place(setup, &narrow) {
            let at = wide_place(&STATE_INSTANTS, number);
            let kept = call.state[at - 1..at + 8] == old[at - 1..at + 8];
            let since = instant(old, at);
            if hold.since_ms.is_none() || !kept || now.saturating_sub(since) < HALF {
                continue;
            }
            let what = if now - since >= u64::from(hold.limit_ms) {
                "held for 2^31 or more"
            } else {
                "not held after 2^31"
            };
            self.counts.add(what, hold.name);
        }
    }

    pub fn missing(&self) -> Vec<String> {
        let mut missing = self.missing_numbers();
        let met = [
            "a fault",
            "a fault by 2^31 or more",
            "a fault by 2^32 or more",
            "a third fault",
            "a gap of 2^31 or more",
            "a gap of 2^32 or more",
            "a disarm",
            "a disarm on a fault",
            "a reading above 2^32",
            "a reading above 2^62",
            "areas",
            "a step down",
            "a step down after 2^31 or more",
        ];
        missing.extend(self.counts.missing("met", &met));
        // The recovery's start is gone where its hold is met: it is counted as a step down.
        let often = [
            "gcs_clear_timer",
            "rc_clear_timer",
            "rc_lost_set",
            "gps_deg_set",
            "gps_deg_clear",
            "gps_lost_set",
            "gps_lost_clear",
            "ekf_set",
            "ekf_clear",
            "fence_breach_clear",
            "alt_min_clear",
            "stale_bat_clear",
            "bat_warn_clear",
            "bat_low_clear",
            "energy_marg_clear",
            "invalid_clear",
        ];
        let held = [
            "fence_breach_set",
            "alt_max_set",
            "alt_min_set",
            "bat_warn_set",
            "bat_low_set",
            "bat_crit_set",
            "energy_marg_set",
            "energy_infeas_set",
            "disarm",
        ];
        missing.extend(self.counts.missing("held for 2^31 or more", &often));
        missing.extend(self.counts.missing("held for 2^31 or more", &held));
        missing.extend(self.counts.missing("not held after 2^31", &often));
        let ages = ["absent", "ahead", "of 2^31 or more", "of 2^32 or more"];
        missing.extend(self.counts.missing("age", &ages));
        missing.extend(self.counts.missing("action", &["0", "1", "2", "3", "4"]));
        missing
    }
}

/// Whether a step with this telemetry of kind 9 is a confirmed disarm.
fn disarmed(setup: &Setup, telemetry: &[u8]) -> bool {
    let at = wide_place(&TELEMETRY_INSTANTS, 7);
    let (now, stamp) = (instant(telemetry, 4), instant(telemetry, at));
    let fresh = u64::from(setup.cfg.status_fresh_ms);
    let off = telemetry[at - 1] == 1 && telemetry[at + 8] == 0;
    off && now.checked_sub(stamp).is_some_and(|age| age <= fresh)
}
