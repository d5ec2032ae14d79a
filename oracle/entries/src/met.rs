//! What a flight meets beside what the fixed list's flights do, each counted, and each to be met by a run.

use failsafe_open::{Config, Decision, Telemetry};
use flights::{Coverage, Hold, Setup, holds, minus, orders_told};
use frames::State;

const CLEAR: &str = "clear timer met beside its set timer";
const ORDER: &str = "another order of the sum tells";
const POWER: &str = "power of -0";

/// Pairs whose two conditions can hold at once. Those of gps, ekf and battery exclude each other.
const FENCE_PAIRS: [&str; 3] = ["fence_breach", "alt_max", "alt_min"];
const ENERGY_PAIR: &str = "energy_marg";

fn is_met(hold: &Hold, now_ms: u32) -> bool {
    let age = hold.since_ms.map(|since| now_ms.wrapping_sub(since));
    age.is_some_and(|age| age < 1 << 31 && age >= hold.limit_ms)
}

fn both_met(all: &[Hold], pair: &str, now_ms: u32) -> bool {
    let part = |end: &str| {
        let name = format!("{pair}_{end}");
        let hold = all.iter().find(|hold| hold.name == name);
        is_met(hold.expect("a timer of this name"), now_ms)
    };
    part("set") && part("clear")
}

/// A faulted step moves no timer, nor does one without the reading that the family looks at.
fn clear_timers(coverage: &mut Coverage, cfg: &Config, t: &Telemetry, d: &Decision, new: &State) {
    if d.clock_fault {
        return;
    }
    let all = holds(new, cfg);
    let mut add = |pair: &str| {
        if both_met(&all, pair, t.now_ms) {
            coverage.add(CLEAR, pair);
        }
    };
    if d.position_valid {
        FENCE_PAIRS.iter().for_each(|pair| add(pair));
    }
    if d.fence_dist_m.is_some() && d.energy.margin_wh.is_some() {
        add(ENERGY_PAIR);
    }
}

fn orders(coverage: &mut Coverage, cfg: &Config, old: &State, t: &Telemetry) {
    let Some(sample) = t.position else { return };
    let mut add = |of: &str, told: [bool; 2]| {
        for (which, told) in ["last two first", "first and last first"].iter().zip(told) {
            if told {
                coverage.add(ORDER, format!("{of}, {which}"));
            }
        }
    };
    add("speed", orders_told(sample.vel, 100.0));
    if let Some(last) = old.glitch.last_accepted {
        let gap = t.now_ms.wrapping_sub(last.t_ms);
        if gap <= 2000 && old.glitch.reject_streak < 3 {
            let limit = cfg.v_max * (gap as f32 / 1000.0) * 2.0 + 5.0;
            add("distance", orders_told(minus(sample.pos, last.pos), limit));
        }
    }
}

/// A configuration that is flown.
pub fn setup(coverage: &mut Coverage, cfg: &Config) {
    let is_minus_zero = |x: f32| x.to_bits() == (-0f32).to_bits();
    for (name, power) in powers(cfg) {
        if is_minus_zero(power) {
            coverage.add(POWER, name);
        }
    }
    if powers(cfg).iter().all(|(_, power)| is_minus_zero(*power)) {
        coverage.add(POWER, "all");
    }
}

fn powers(cfg: &Config) -> [(&'static str, f32); 4] {
    [
        ("p_cruise", cfg.p_cruise),
        ("p_climb", cfg.p_climb),
        ("p_desc", cfg.p_desc),
        ("reserve_wh", cfg.reserve_wh),
    ]
}

/// One step: the state before it, its telemetry, its Decision, and the state after it.
pub fn step(
    coverage: &mut Coverage,
    setup: &Setup,
    old: &State,
    t: &Telemetry,
    d: &Decision,
    new: &State,
) {
    clear_timers(coverage, &setup.cfg, t, d, new);
    orders(coverage, &setup.cfg, old, t);
}

/// What was never met.
pub fn missing(coverage: &Coverage) -> Vec<String> {
    let mut wanted: Vec<(&'static str, String)> = Vec::new();
    for pair in FENCE_PAIRS.iter().chain([&ENERGY_PAIR]) {
        wanted.push((CLEAR, pair.to_string()));
    }
    for of in ["speed", "distance"] {
        for which in ["last two first", "first and last first"] {
            wanted.push((ORDER, format!("{of}, {which}")));
        }
    }
    for (name, _) in powers(&Config::default()) {
        wanted.push((POWER, name.to_string()));
    }
    wanted.push((POWER, "all".to_string()));
    let never = wanted
        .iter()
        .filter(|(what, which)| !coverage.has(what, which));
    never
        .map(|(what, which)| format!("{what}: {which}"))
        .collect()
}
