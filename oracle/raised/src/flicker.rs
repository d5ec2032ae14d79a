//! Readings that cross the thresholds of the eight back and forth, on top of a pilot's flight.

use failsafe_open::{
    Config, GpsFix, GpsSample, LandedState, PositionSample, Stamped, Telemetry, Vec3, rtl_energy,
};
use flights::Setup;
use random::Random;

const DEGRADED: usize = 0;
const LOST: usize = 1;
const EKF: usize = 2;
const BREACH: usize = 3;
const ALTITUDE: usize = 4;
const WARN: usize = 5;
const LOW: usize = 6;
const MARGINAL: usize = 7;

/// Where a reading stands.
#[derive(Clone, Copy, PartialEq)]
enum Stand {
    /// Its set timer runs.
    Set,
    /// Neither runs.
    Between,
    /// Its clear timer runs.
    Clear,
    /// Both run, where the configuration's thresholds overlap.
    Both,
    Absent,
    Stale,
}

/// Short holds, and thresholds that overlap at times, beside the square fence.
pub fn setup(random: &mut Random) -> Setup {
    loop {
        let mut c = Setup::random(random).cfg;
        holds(random, &mut c);
        c.fence_breach_clear_m = random.one_of(&[5.0, 0.0, -3.0]);
        c.alt_min_clear_m = random.one_of(&[2.0, 0.0, -3.0]);
        c.alt_max_clear_m = random.one_of(&[5.0, -20.0]);
        c.energy_marginal_clear_wh = random.one_of(&[7.0, 5.0, 2.0, 0.0]);
        if let Some(setup) = Setup::of(&c, Setup::defaults().fence) {
            return setup;
        }
    }
}

fn holds(random: &mut Random, c: &mut Config) {
    for ms in [
        &mut c.gps_degraded_set_ms,
        &mut c.gps_lost_set_ms,
        &mut c.ekf_unhealthy_set_ms,
        &mut c.fence_breach_set_ms,
        &mut c.alt_min_set_ms,
        &mut c.battery_warn_set_ms,
        &mut c.battery_low_set_ms,
        &mut c.energy_marginal_set_ms,
        &mut c.alt_max_set_ms,
        &mut c.rc_lost_set_ms,
    ] {
        *ms = random.one_of(&[0, 1, 60, 300, 1000, *ms]);
    }
    for ms in [
        &mut c.gps_degraded_clear_ms,
        &mut c.gps_lost_clear_ms,
        &mut c.ekf_unhealthy_clear_ms,
        &mut c.fence_breach_clear_ms,
        &mut c.alt_min_clear_ms,
        &mut c.alt_max_clear_hold_ms,
        &mut c.battery_warn_clear_ms,
        &mut c.battery_low_clear_ms,
        &mut c.energy_marginal_clear_ms,
    ] {
        *ms = random.one_of(&[0, 1, 60, 300, 1000, *ms]);
    }
}

pub struct Flicker {
    on: [bool; 8],
    at: [Stand; 8],
    /// The altitude flickers at the fence's upper limit, which is none of the eight.
    high: bool,
    /// A reading stays where it stands for so many steps or so.
    pace: usize,
}

impl Flicker {
    pub fn new(random: &mut Random) -> Self {
        let many = random.one_of(&[1, 2, 4]);
        Flicker {
            on: std::array::from_fn(|_| random.chance(many)),
            at: [Stand::Clear; 8],
            high: random.chance(4),
            pace: random.one_of(&[1, 2, 5]),
        }
    }

    pub fn apply(&mut self, random: &mut Random, c: &Config, t: &mut Telemetry) {
        for at in &mut self.at {
            if random.chance(self.pace) {
                *at = draw(random);
            }
        }
        if self.on[DEGRADED] || self.on[LOST] {
            t.gps = self.gps(random, c, t.now_ms);
        }
        if self.on[EKF] {
            t.ekf_ok = self.stamp(EKF, t.now_ms, c.status_fresh_ms).map(|t_ms| {
                let value = self.at[EKF] != Stand::Set;
                Stamped { t_ms, value }
            });
        }
        if self.on[BREACH] || self.on[ALTITUDE] {
            self.place(random, c, t);
        }
        if self.on[WARN] || self.on[LOW] || self.on[MARGINAL] {
            self.battery(random, c, t);
        }
    }

    fn stamp(&self, pair: usize, now: u32, fresh_ms: u32) -> Option<u32> {
        match self.at[pair] {
            Stand::Absent => None,
            Stand::Stale => Some(now.wrapping_sub(fresh_ms.wrapping_add(1))),
            _ => Some(now),
        }
    }

    fn gps(&self, random: &mut Random, c: &Config, now: u32) -> Option<GpsSample> {
        let whose = if self.on[LOST] { LOST } else { DEGRADED };
        let t_ms = self.stamp(whose, now, c.gps_fresh_ms)?;
        let lost = self.on[LOST] && self.at[LOST] == Stand::Set;
        let fix = if lost {
            random.one_of(&[GpsFix::None, GpsFix::Fix2D])
        } else {
            GpsFix::Fix3D
        };
        let degraded = if self.on[DEGRADED] {
            self.at[DEGRADED]
        } else {
            Stand::Clear
        };
        let (sats, hdop) = match degraded {
            Stand::Set => random.one_of(&[(7, 2.5), (12, 2.5f32.next_up())]),
            Stand::Between => random.one_of(&[(8, 2.0), (9, 2.5), (12, 2.0f32.next_up())]),
            _ => (10, 2.0),
        };
        Some(GpsSample {
            t_ms,
            fix,
            sats: Some(sats),
            hdop: Some(hdop),
        })
    }

    /// By the north side of the square fence, low or not.
    fn place(&self, random: &mut Random, c: &Config, t: &mut Telemetry) {
        let clear = c.fence_breach_clear_m;
        let distance = match self.at[BREACH] {
            _ if !self.on[BREACH] => 440.0,
            Stand::Set => random.one_of(&[-1.0, -3.0]),
            Stand::Between => random.one_of(&[0.0, clear / 2.0]),
            Stand::Both => clear / 2.0,
            _ => random.one_of(&[clear, clear + 1.0]),
        };
        let altitude = self.altitude(random, c);
        let whose = if self.on[BREACH] { BREACH } else { ALTITUDE };
        t.position = self
            .stamp(whose, t.now_ms, c.pos_fresh_ms)
            .map(|t_ms| PositionSample {
                t_ms,
                pos: Vec3 {
                    n: 500.0 - distance,
                    e: 0.0,
                    d: -altitude,
                },
                vel: Vec3 {
                    n: 1.0,
                    e: 0.0,
                    d: 0.0,
                },
            });
        t.landed = Some(Stamped {
            t_ms: t.now_ms,
            value: LandedState::InAir,
        });
    }

    fn altitude(&self, random: &mut Random, c: &Config) -> f32 {
        let (low, high, clear) = (5f32, 120f32, c.alt_min_clear_m);
        match self.at[ALTITUDE] {
            _ if !self.on[ALTITUDE] => 40.0,
            Stand::Set if self.high => random.one_of(&[high.next_up(), high + 30.0]),
            Stand::Both if self.high => high + 10.0,
            _ if self.high => random.one_of(&[high, 115.0]),
            Stand::Set => random.one_of(&[4.0, low.next_down()]),
            Stand::Between => random.one_of(&[low, low + clear.max(0.0)]),
            Stand::Both => low + clear / 2.0,
            _ => (low + clear.max(0.0)).next_up(),
        }
    }

    /// The charge by what remains or by the percentage: the Rust asks for what remains first.
    fn battery(&self, random: &mut Random, c: &Config, t: &mut Telemetry) {
        let charge = self.on[WARN] || self.on[LOW];
        if self.on[MARGINAL] && !(charge && random.chance(2)) {
            self.margin(random, c, t);
            return;
        }
        if !charge {
            return;
        }
        let whose = match (self.on[WARN], self.on[LOW]) {
            (true, true) => random.one_of(&[WARN, LOW]),
            (true, false) => WARN,
            _ => LOW,
        };
        let (limit, clear) = match whose {
            WARN => (c.battery_warn_pct, c.battery_warn_clear_pct),
            _ => (c.battery_low_pct, c.battery_low_clear_pct),
        };
        let value = match self.at[whose] {
            Stand::Set => random.one_of(&[limit.next_down(), limit - 1.0]),
            Stand::Between => random.one_of(&[limit, clear]),
            _ => clear.next_up(),
        };
        let stamp = self.stamp(whose, t.now_ms, c.battery_fresh_ms);
        t.battery.percent = stamp.map(|t_ms| Stamped { t_ms, value });
        t.battery.remaining_wh = None;
        if random.chance(4) {
            let value = value / 100.0 * c.usable_capacity_wh;
            t.battery.remaining_wh = stamp.map(|t_ms| Stamped { t_ms, value });
        }
    }

    fn margin(&self, random: &mut Random, c: &Config, t: &mut Telemetry) {
        let Some(sample) = t.position else { return };
        let (limit, clear) = (c.energy_marginal_wh, c.energy_marginal_clear_wh);
        let margin = match self.at[MARGINAL] {
            Stand::Set => random.one_of(&[limit - 0.01, 0.01]),
            Stand::Between => random.one_of(&[limit, clear]),
            Stand::Both => (limit + clear) / 2.0,
            _ => clear.max(limit) + 0.01,
        };
        let value = rtl_energy(c, sample.pos, None).rtl_wh + c.reserve_wh + margin;
        let stamp = self.stamp(MARGINAL, t.now_ms, c.battery_fresh_ms);
        t.battery.remaining_wh = stamp.map(|t_ms| Stamped { t_ms, value });
        t.battery.percent = None;
    }
}

fn draw(random: &mut Random) -> Stand {
    match random.below(16) {
        0..5 => Stand::Set,
        5..7 => Stand::Between,
        7..11 => Stand::Clear,
        11..14 => Stand::Both,
        14 => Stand::Absent,
        _ => Stand::Stale,
    }
}
