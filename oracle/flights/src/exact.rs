//! Flights whose readings stand at a limit, and one float to either side of it. The state after each step tells which
//! way each comparison went, so that one step a reading is enough.

use failsafe_open::{Config, GpsFix, GpsSample, LandedState, Stamped, Telemetry, Vec3, rtl_energy};
use random::{Random, nudged};

use crate::Flight;
use crate::script::healthy;

type Change = Box<dyn Fn(&mut Telemetry)>;

/// A float, and those just below and above it.
fn around(x: f32) -> [f32; 3] {
    let tiny = f32::from_bits(1);
    if x == 0.0 {
        [-tiny, x, tiny]
    } else {
        [nudged(x, -1), x, nudged(x, 1)]
    }
}

fn placed(n: f32, e: f32, alt: f32) -> Change {
    Box::new(move |t| {
        if let Some(sample) = &mut t.position {
            sample.pos = Vec3 { n, e, d: -alt };
        }
    })
}

fn moving(n: f32, e: f32, d: f32) -> Change {
    Box::new(move |t| {
        if let Some(sample) = &mut t.position {
            sample.vel = Vec3 { n, e, d };
        }
    })
}

fn gps(sats: Option<u8>, hdop: Option<f32>) -> Change {
    Box::new(move |t| {
        let t_ms = t.now_ms;
        let fix = GpsFix::Fix3D;
        t.gps = Some(GpsSample {
            t_ms,
            fix,
            sats,
            hdop,
        });
    })
}

/// Some of the three readings of the battery, each fresh.
fn battery(volts: Option<f32>, percent: Option<f32>, remaining: Option<f32>) -> Change {
    Box::new(move |t| {
        let t_ms = t.now_ms;
        let stamped = |x: Option<f32>| x.map(|value| Stamped { t_ms, value });
        t.battery.voltage_v = stamped(volts);
        t.battery.percent = stamped(percent);
        t.battery.remaining_wh = stamped(remaining);
    })
}

/// Speeds of which one order of the sum of squares gives more than 100, and the other not.
fn speeds_by_order(random: &mut Random) -> Vec<Change> {
    let mut found: Vec<Change> = Vec::new();
    while found.len() < 4 {
        let [a, b] = [random.between(20.0, 60.0), random.between(20.0, 60.0)];
        let rest = (10_000.0 - a as f64 * a as f64 - b as f64 * b as f64).max(0.0);
        let c = nudged(rest.sqrt() as f32, random.below(5) as i32 - 2);
        let left = ((a * a + b * b) + c * c).sqrt() > 100.0;
        let right = (a * a + (b * b + c * c)).sqrt() > 100.0;
        if left != right {
            found.push(moving(a, b, c));
        }
    }
    found
}

fn velocities(random: &mut Random) -> Vec<Change> {
    let mut all: Vec<Change> = Vec::new();
    for speed in around(100.0) {
        all.extend([moving(speed, 0.0, 0.0), moving(0.0, 0.0, -speed)]);
    }
    all.push(moving(60.0, -80.0, 0.0));
    all.extend(speeds_by_order(random));
    all
}

fn receivers() -> Vec<Change> {
    let mut all: Vec<Change> = Vec::new();
    for hdop in [0.0, -0.0, 2.0, 2.5, 100.0].into_iter().flat_map(around) {
        all.push(gps(Some(14), Some(hdop)));
    }
    all.extend((7..=11).map(|sats| gps(Some(sats), Some(0.9))));
    all.extend([gps(None, Some(0.9)), gps(Some(14), None)]);
    all
}

/// The bounds of a sound reading of the battery.
fn batteries(cfg: &Config) -> Vec<Change> {
    let mut all: Vec<Change> = Vec::new();
    for x in [100.0, 0.0].into_iter().flat_map(around) {
        all.extend([
            battery(Some(x), Some(90.0), None),
            battery(Some(16.0), Some(x), None),
        ]);
    }
    for wh in [cfg.usable_capacity_wh * 1.1, 0.0]
        .into_iter()
        .flat_map(around)
    {
        all.push(battery(Some(16.0), None, Some(wh)));
    }
    all
}

/// The bounds of a sound position.
fn envelope() -> Vec<Change> {
    let mut all: Vec<Change> = Vec::new();
    for alt in around(2000.0).into_iter().chain(around(-100.0)) {
        all.push(placed(10.0, -5.0, alt));
    }
    for far in around(10_000.0).into_iter().chain(around(-10_000.0)) {
        all.extend([placed(far, 0.0, 40.0), placed(0.0, far, 40.0)]);
    }
    all
}

/// Distances, heights and the distance from home, at what the configuration and the fence (sides at 500 m) compare them with.
fn places(cfg: &Config, low: f32, high: f32) -> Vec<Change> {
    let mut all: Vec<Change> = Vec::new();
    let inward = [0.0, cfg.fence_approach_m, cfg.fence_breach_clear_m];
    for north in inward.into_iter().flat_map(|m| around(500.0 - m)) {
        all.extend([placed(north, 3.0, 40.0), placed(3.0, -north, 40.0)]);
    }
    // Downwards, so that a clear timer that runs above the fence is met by a step below it.
    for alt in [high - cfg.alt_max_clear_m, high]
        .into_iter()
        .flat_map(|alt| around(alt).into_iter().rev())
    {
        all.push(placed(10.0, -5.0, alt));
    }
    for alt in [low, low + cfg.alt_min_clear_m]
        .into_iter()
        .flat_map(around)
    {
        all.push(placed(60.0, 0.0, alt));
    }
    for north in around(cfg.alt_min_home_radius_m) {
        all.push(placed(north, 0.0, nudged(low, -1)));
    }
    all
}

/// Percentages of the battery, by the percentage and by what remains, and the voltage of a cell.
fn charges(cfg: &Config) -> Vec<Change> {
    let mut all: Vec<Change> = Vec::new();
    let limits = [
        cfg.battery_warn_pct,
        cfg.battery_warn_clear_pct,
        cfg.battery_low_pct,
        cfg.battery_low_clear_pct,
        cfg.battery_critical_pct,
    ];
    for percent in limits.into_iter().flat_map(around) {
        let wh = percent / 100.0 * cfg.usable_capacity_wh;
        all.push(battery(None, Some(percent), None));
        all.push(battery(None, None, Some(wh)));
    }
    for volts in around(cfg.battery_critical_v_per_cell * cfg.cell_count as f32) {
        all.push(battery(Some(volts), Some(90.0), None));
    }
    all
}

/// A place, and what has to remain for the margin to be exactly this there.
fn exact(cfg: &Config, wanted: f32) -> (Vec3, f32) {
    for k in 0..1000 {
        let pos = Vec3 {
            n: 10.0 + k as f32 / 8.0,
            e: -5.0,
            d: -40.0,
        };
        let due = rtl_energy(cfg, pos, None);
        let first = due.rtl_wh + due.reserve_wh + wanted;
        let near = (-8..8).map(|by| nudged(first, by));
        let found = near
            .into_iter()
            .find(|&wh| rtl_energy(cfg, pos, Some(wh)).margin_wh == Some(wanted));
        if let Some(wh) = found {
            return (pos, wh);
        }
    }
    unreachable!("some place has this margin")
}

fn remaining_at(pos: Vec3, wh: f32) -> Change {
    Box::new(move |t| {
        placed(pos.n, pos.e, -pos.d)(t);
        battery(Some(16.0), None, Some(wh))(t);
    })
}

/// The margin at each limit and beside it: marginal, no longer so, infeasible; and what remains at the energy to land.
fn margins(cfg: &Config) -> Vec<Change> {
    let mut all: Vec<Change> = Vec::new();
    for wanted in [cfg.energy_marginal_clear_wh, cfg.energy_marginal_wh, 0.0] {
        let (pos, wh) = exact(cfg, wanted);
        for by in [8, 1, 0, -1, -8] {
            all.push(remaining_at(pos, nudged(wh, by)));
        }
    }
    let (pos, _) = exact(cfg, 0.0);
    for wh in around(rtl_energy(cfg, pos, None).land_wh) {
        all.push(remaining_at(pos, wh));
    }
    all
}

/// Each reading for a step, 2,100 ms after the last, so that the filter takes every position.
pub fn fly(flight: &mut Flight, random: &mut Random) {
    let (cfg, fence) = (flight.setup.cfg, flight.setup.geofence);
    flight.step(healthy(0));
    // What ends in a latch comes late.
    let all = [
        places(&cfg, fence.min_alt_m, fence.max_alt_m),
        velocities(random),
        receivers(),
        charges(&cfg),
        margins(&cfg),
        batteries(&cfg),
        envelope(),
    ];
    for change in all.into_iter().flatten() {
        let mut t = healthy(flight.last().wrapping_add(2100));
        change(&mut t);
        flight.step(t);
    }
}

/// A jump at the filter's limit and one float beside, along one axis and along three; with the streak that lets it pass.
pub fn jumps(flight: &mut Flight, _: &mut Random) {
    flight.step(healthy(0));
    let most = flight.setup.cfg.v_max * 0.1 * 2.0 + 5.0;
    for far in around(most).into_iter().chain([most * 3.0; 5]) {
        let stored = flight.both.state().glitch.last_accepted;
        let mut t = healthy(flight.last().wrapping_add(80));
        if let (Some(sample), Some(last)) = (&mut t.position, stored) {
            sample.pos = last.pos;
            sample.pos.n += far;
        }
        flight.step(t);
    }
    for k in 0..24 {
        let stored = flight.both.state().glitch.last_accepted;
        let mut t = healthy(flight.last().wrapping_add(80));
        if let (Some(sample), Some(last)) = (&mut t.position, stored) {
            let part = nudged(most / 3f32.sqrt(), k % 12 - 6);
            sample.pos = Vec3 {
                n: last.pos.n - part,
                e: last.pos.e + part,
                d: last.pos.d - nudged(part, k % 3 - 1),
            };
        }
        flight.step(t);
    }
}

/// A disarm that is stale by one millisecond, one from ahead, and one that is just fresh, while Land is shown under both
/// latches; and the same on a fault.
pub fn disarms(flight: &mut Flight, _: &mut Random) {
    let fresh = flight.setup.cfg.status_fresh_ms;
    let critical = |now: u32| {
        let mut t = healthy(now);
        battery(Some(12.0), Some(5.0), Some(1.0))(&mut t);
        t
    };
    for _ in 0..2 {
        for _ in 0..4 {
            flight.step(critical(flight.last().wrapping_add(2100)));
        }
        for age in [fresh + 1, u32::MAX, 1 << 31, fresh] {
            let mut t = critical(flight.last().wrapping_add(50));
            let t_ms = t.now_ms.wrapping_sub(age);
            t.armed = Some(Stamped { t_ms, value: false });
            flight.step(t);
        }
        for back in [1, 100, 1] {
            let mut t = critical(flight.last().wrapping_sub(back));
            let t_ms = t.now_ms.wrapping_sub(fresh + back % 2);
            t.armed = Some(Stamped { t_ms, value: false });
            flight.step(t);
        }
    }
    // The gate: on the ground and armed, each just fresh and just stale.
    for age in [fresh, fresh, fresh + 1, fresh, fresh, fresh] {
        let mut t = critical(flight.last().wrapping_add(2100));
        let t_ms = t.now_ms.wrapping_sub(age);
        t.landed = Some(Stamped {
            t_ms,
            value: LandedState::OnGround,
        });
        t.armed = Some(Stamped { t_ms, value: true });
        flight.step(t);
    }
}
