//! Counts what flights passed through, and says what is missing.

use std::collections::BTreeMap;

use failsafe_open::{Action, Decision, Reason, Telemetry};
use frames::State;

use crate::setup::Setup;
use crate::timers::holds;

#[derive(Default)]
pub struct Coverage {
    pub steps: u64,
    counts: BTreeMap<(&'static str, String), u64>,
}

const ACTIONS: [Action; 5] = [
    Action::Nominal,
    Action::Warn,
    Action::Hold,
    Action::ReturnToLaunch,
    Action::Land,
];

/// The Rust files no request with these.
const NEVER_FILED: [Reason; 2] = [Reason::None, Reason::PositionInvalid];

impl Coverage {
    pub fn add(&mut self, what: &'static str, which: impl Into<String>) {
        *self.counts.entry((what, which.into())).or_default() += 1;
    }

    pub fn has(&self, what: &'static str, which: &str) -> bool {
        self.counts.contains_key(&(what, which.to_string()))
    }

    /// One step: the state before it, its telemetry, its Decision, and the state after it.
    pub fn step(&mut self, setup: &Setup, old: &State, t: &Telemetry, d: &Decision, new: &State) {
        self.steps += 1;
        self.decision(old, d);
        self.state(old, d, new);
        self.clock(old, t, d, new);
        self.edges(setup, old, t);
    }

    fn decision(&mut self, old: &State, d: &Decision) {
        self.add("action", format!("{:?}", d.action));
        self.add("reason", format!("{:?}", d.reason));
        for request in d.active.reqs.iter().flatten() {
            self.add("request", format!("{:?}", request.reason));
        }
        let previous = old.arbiter.prev_output;
        if d.action.rank() < previous.rank() {
            self.add("step down", format!("{previous:?} to {:?}", d.action));
        }
        if d.reason == Reason::PositionInvalid && previous.rank() <= Action::ReturnToLaunch.rank() {
            self.add("changed to Land", format!("after {previous:?}"));
        }
        if d.disarm_eligible {
            self.add("other", "disarm eligible");
        }
        if d.energy.insufficient_for_landing {
            self.add("other", "insufficient for landing");
        }
        let shown = d.action == Action::Land && d.requested != Action::Land;
        if shown && d.active.reqs[d.reason.index()].is_none() && d.reason != Reason::PositionInvalid
        {
            self.add("other", "a shown reason that no request has");
        }
    }

    fn state(&mut self, old: &State, d: &Decision, new: &State) {
        let (a, b) = (&old.triggers, &new.triggers);
        if !a.battery_critical_latched && b.battery_critical_latched {
            self.add("latch", "battery");
        }
        if !a.energy_infeasible_latched && b.energy_infeasible_latched {
            self.add("latch", "energy");
        }
        if b.battery_critical_latched && b.energy_infeasible_latched {
            self.add("latch", "both");
        }
        let freed = !b.battery_critical_latched && !b.energy_infeasible_latched;
        if (a.battery_critical_latched || a.energy_infeasible_latched) && freed {
            self.add("latch", "freed");
        }
        if a.gcs_stage != b.gcs_stage {
            self.add("link stage", format!("{} to {}", a.gcs_stage, b.gcs_stage));
        }
        let (was, is) = (old.glitch.reject_streak, new.glitch.reject_streak);
        if is > was {
            self.add("filter", format!("refused, streak {is}"));
        } else if was == 3 && is == 0 && !d.clock_fault {
            self.add("filter", "kept after three");
        }
    }

    fn clock(&mut self, old: &State, t: &Telemetry, d: &Decision, new: &State) {
        let Some(last) = old.last_now else { return };
        let disarmed = d.action == Action::Nominal && new.arbiter.prev_output == Action::Nominal;
        if d.clock_fault {
            self.add("clock", "fault");
            if old.backwards_streak == 2 {
                self.add("clock", "third fault");
            }
            if disarmed && d.active.requested_action().0 == Action::Nominal {
                self.add("clock", "disarm on a fault");
            }
        } else if t.now_ms < last {
            self.add("clock", "wrapped");
        }
        match t.now_ms.wrapping_sub(last) {
            0x7FFF_FFFF => self.add("clock", "2^31 - 1 after the last"),
            0x8000_0000 => self.add("clock", "2^31 after the last"),
            _ => {}
        }
    }

    /// Holds and limits of freshness at one below, exactly at, and one above.
    fn edges(&mut self, setup: &Setup, old: &State, t: &Telemetry) {
        for hold in holds(old, &setup.cfg) {
            if let Some(since) = hold.since_ms {
                let age = t.now_ms.wrapping_sub(since);
                self.edge("hold", hold.name, age, hold.limit_ms);
            }
        }
        let c = &setup.cfg;
        let mut fresh = |name, stamp: Option<u32>, limit: u32| {
            if let Some(stamp) = stamp {
                self.edge("age", name, t.now_ms.wrapping_sub(stamp), limit);
            }
        };
        fresh("position", t.position.map(|s| s.t_ms), c.pos_fresh_ms);
        fresh("gps", t.gps.map(|s| s.t_ms), c.gps_fresh_ms);
        fresh(
            "voltage",
            t.battery.voltage_v.map(|s| s.t_ms),
            c.battery_fresh_ms,
        );
        fresh(
            "percent",
            t.battery.percent.map(|s| s.t_ms),
            c.battery_fresh_ms,
        );
        fresh(
            "remaining",
            t.battery.remaining_wh.map(|s| s.t_ms),
            c.battery_fresh_ms,
        );
        fresh("armed", t.armed.map(|s| s.t_ms), c.status_fresh_ms);
        fresh("landed", t.landed.map(|s| s.t_ms), c.status_fresh_ms);
        fresh("rc_ok", t.rc_ok.map(|s| s.t_ms), c.status_fresh_ms);
        fresh("ekf_ok", t.ekf_ok.map(|s| s.t_ms), c.status_fresh_ms);
        fresh(
            "stored sample",
            old.glitch.last_accepted.map(|s| s.t_ms),
            2000,
        );
        fresh("link clear", t.gcs_heartbeat_ms, c.gcs_clear_ms);
        fresh("link warn", t.gcs_heartbeat_ms, c.gcs_warn_ms);
        fresh("link hold", t.gcs_heartbeat_ms, c.gcs_hold_ms);
        fresh("link return", t.gcs_heartbeat_ms, c.gcs_rtl_ms);
    }

    fn edge(&mut self, what: &'static str, name: &str, age: u32, limit: u32) {
        match age.wrapping_sub(limit) as i32 {
            -1 => self.add(what, format!("{name} one below")),
            0 => self.add(what, format!("{name} exactly")),
            1 => self.add(what, format!("{name} one above")),
            _ => {}
        }
    }

    /// What a long run of flights has to have passed through.
    fn expected() -> Vec<(&'static str, String)> {
        let mut all = Vec::new();
        for action in ACTIONS {
            all.push(("action", format!("{action:?}")));
            for lower in ACTIONS.iter().filter(|lower| lower.rank() < action.rank()) {
                all.push(("step down", format!("{action:?} to {lower:?}")));
            }
        }
        for reason in (0..19).filter_map(Reason::from_index) {
            // A fault shows the reason of the step before it.
            if reason != Reason::ClockFault {
                all.push(("reason", format!("{reason:?}")));
            }
            if !NEVER_FILED.contains(&reason) {
                all.push(("request", format!("{reason:?}")));
            }
        }
        for before in [
            Action::Nominal,
            Action::Warn,
            Action::Hold,
            Action::ReturnToLaunch,
        ] {
            all.push(("changed to Land", format!("after {before:?}")));
        }
        for which in ["battery", "energy", "both", "freed"] {
            all.push(("latch", which.into()));
        }
        for (from, to) in [
            (0, 1),
            (0, 2),
            (0, 3),
            (1, 0),
            (1, 2),
            (1, 3),
            (2, 0),
            (2, 1),
            (2, 3),
        ] {
            all.push(("link stage", format!("{from} to {to}")));
        }
        for (from, to) in [(3, 0), (3, 1), (3, 2)] {
            all.push(("link stage", format!("{from} to {to}")));
        }
        for which in [
            "refused, streak 1",
            "refused, streak 2",
            "refused, streak 3",
        ] {
            all.push(("filter", which.into()));
        }
        all.push(("filter", "kept after three".into()));
        for which in [
            "fault",
            "third fault",
            "disarm on a fault",
            "wrapped",
            "2^31 - 1 after the last",
            "2^31 after the last",
        ] {
            all.push(("clock", which.into()));
        }
        for which in [
            "disarm eligible",
            "insufficient for landing",
            "a shown reason that no request has",
        ] {
            all.push(("other", which.into()));
        }
        for side in ["one below", "exactly", "one above"] {
            for hold in holds(&State::fresh(), &failsafe_open::Config::default()) {
                all.push(("hold", format!("{} {side}", hold.name)));
            }
            for name in [
                "position",
                "gps",
                "voltage",
                "percent",
                "remaining",
                "armed",
                "landed",
                "rc_ok",
                "ekf_ok",
                "stored sample",
                "link clear",
                "link warn",
                "link hold",
                "link return",
            ] {
                all.push(("age", format!("{name} {side}")));
            }
        }
        all
    }

    pub fn missing(&self) -> Vec<String> {
        Self::expected()
            .into_iter()
            .filter(|key| !self.counts.contains_key(key))
            .map(|(what, which)| format!("{what}: {which}"))
            .collect()
    }

    /// A line for each kind of thing, with the counts.
    pub fn report(&self) {
        let mut lines: BTreeMap<&str, Vec<String>> = BTreeMap::new();
        for ((what, which), count) in &self.counts {
            lines
                .entry(what)
                .or_default()
                .push(format!("{which} {count}"));
        }
        for (what, counts) in lines {
            println!("{what}: {}", counts.join(", "));
        }
        let missing = self.missing();
        if missing.is_empty() {
            println!("nothing is missing");
        } else {
            println!("missing: {}", missing.join(", "));
        }
    }
}
