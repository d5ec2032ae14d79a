//! Configurations and fences, as frames.

use failsafe_open::{Config, Geofence};
use frames::{
    CONFIG, CONFIG_FRAME, Corners, FenceSent, fence_open, put_frame, read_frame, write_fence,
};
use random::Random;

use crate::limits::beside;

/// Floats of a Config that no rule looks at, by their place in declared order.
const FREE_FLOATS: [usize; 11] = [21, 22, 24, 26, 29, 31, 43, 45, 46, 54, 61];
/// Durations that no rule looks at.
const FREE_DURATIONS: [usize; 31] = [
    3, 4, 5, 6, 9, 10, 11, 12, 13, 14, 15, 16, 17, 18, 19, 20, 23, 25, 27, 28, 30, 32, 33, 36, 37,
    40, 41, 44, 47, 48, 50,
];
/// Durations from 1 to 600,000.
const BOUND_DURATIONS: [usize; 4] = [7, 8, 49, 51];

/// A configuration and a fence that are accepted together.
#[derive(Clone)]
pub struct Setup {
    pub config: [u8; CONFIG_FRAME],
    pub fence: Vec<u8>,
    pub cfg: Config,
    pub geofence: Geofence,
}

/// Puts a word into a configuration frame. From the fourth field on all are words.
fn put(frame: &mut [u8; CONFIG_FRAME], field: usize, word: u32) {
    let at = 10 + 4 * (field - 3);
    frame[at..at + 4].copy_from_slice(&word.to_le_bytes());
}

pub fn config_frame(cfg: &Config) -> [u8; CONFIG_FRAME] {
    let mut frame = [0; CONFIG_FRAME];
    put_frame(CONFIG, cfg, &mut frame);
    frame
}

pub fn fence_frame(min_alt_m: f32, max_alt_m: f32, points: &[(f32, f32)]) -> Vec<u8> {
    let mut at = [(0.0, 0.0); 16];
    at[..points.len()].copy_from_slice(points);
    let corners = Corners {
        count: points.len(),
        at,
    };
    let sent = FenceSent {
        once_round: false,
        min_alt_m,
        max_alt_m,
        corners,
    };
    let mut frame = vec![0; 13 + 8 * points.len()];
    write_fence(&sent, &mut frame).expect("room for a fence");
    frame
}

/// The corners of `default_fence` in the order that the Rust lists them.
const SQUARE: [(f32, f32); 4] = [
    (-500.0, -500.0),
    (-500.0, 500.0),
    (500.0, 500.0),
    (500.0, -500.0),
];

impl Setup {
    pub fn of(cfg: &Config, fence: Vec<u8>) -> Option<Self> {
        let config = config_frame(cfg);
        let cfg = read_frame(CONFIG, &config).ok()?;
        let geofence = fence_open(&frames::read_fence(&fence).ok()?).ok()?;
        failsafe_open::validate_config(&cfg, &geofence).ok()?;
        Some(Setup {
            config,
            fence,
            cfg,
            geofence,
        })
    }

    /// The Rust's defaults.
    pub fn defaults() -> Self {
        Self::with(&Config::default())
    }

    /// The same with another fence, where that is accepted too.
    pub fn fenced(&self, fence: Vec<u8>) -> Option<Self> {
        Self::of(&self.cfg, fence)
    }

    /// A configuration that is accepted with the default fence.
    pub fn with(cfg: &Config) -> Self {
        Self::of(cfg, fence_frame(5.0, 120.0, &SQUARE)).expect("an accepted configuration")
    }

    /// The same with some durations of 2^31 and beyond, where no rule looks.
    pub fn with_long_durations(&self, random: &mut Random) -> Self {
        let mut frame = self.config;
        for field in FREE_DURATIONS {
            if random.chance(5) {
                let long = [1 << 31, u32::MAX, u32::MAX - 1, (1 << 31) - 1, random.u32()];
                put(&mut frame, field, random.one_of(&long));
            }
        }
        let cfg = read_frame(CONFIG, &frame).expect("a configuration frame");
        Self::of(&cfg, self.fence.clone()).expect("no rule looks at these")
    }

    /// Any that is accepted: the defaults, shorter or longer holds, odd values where no rule looks.
    pub fn random(random: &mut Random) -> Self {
        loop {
            let cfg = random_config(random);
            let fence = random_fence(random, cfg.h_rtl);
            if let Some(setup) = Self::of(&cfg, fence) {
                return setup;
            }
        }
    }
}

/// A configuration and a fence frame, mostly accepted together, with what the fixed list's flights seldom or never have: powers of
/// −0, each threshold to clear on both sides of the one to set, so that both of its timers may run at once, and what the rules compare
/// at the limit.
pub fn wide(random: &mut Random) -> (Config, Vec<u8>) {
    let mut cfg = random_config(random);
    clear_thresholds(random, &mut cfg);
    if random.chance(4) {
        minus_zeros(random, &mut cfg);
    }
    if random.chance(8) {
        equal_percents(random, &mut cfg);
    }
    let fence = match random.below(8) {
        0 => limit_fence(random, cfg.h_rtl),
        1 => straight_fence(random, cfg.h_rtl),
        _ => random_fence(random, cfg.h_rtl),
    };
    (cfg, fence)
}

fn clear_thresholds(random: &mut Random, cfg: &mut Config) {
    if random.chance(2) {
        cfg.alt_min_clear_m = random.one_of(&[-30.0, -3.0, -1.0, -0.0, 2.0]);
    }
    if random.chance(2) {
        cfg.alt_max_clear_m = random.one_of(&[-40.0, -20.0, -3.0, -0.0, 5.0]);
    }
    if random.chance(2) {
        let part = random.one_of(&[-0.5, 0.0, 0.25, 0.5, 1.0, 1.4]);
        cfg.energy_marginal_clear_wh = part * cfg.energy_marginal_wh;
    }
    if random.chance(4) {
        cfg.fence_breach_clear_m = random.one_of(&[-6000.0, -60.0, -1.0, -0.0, 0.0]);
    }
}

fn minus_zeros(random: &mut Random, cfg: &mut Config) {
    let all = random.chance(3);
    for power in [
        &mut cfg.p_cruise,
        &mut cfg.p_climb,
        &mut cfg.p_desc,
        &mut cfg.reserve_wh,
    ] {
        if all || random.chance(3) {
            *power = -0.0;
        }
    }
}

/// Two percents of the order are one, or a float apart.
fn equal_percents(random: &mut Random, cfg: &mut Config) {
    let (low, warn) = (cfg.battery_low_pct, cfg.battery_warn_pct);
    match random.below(4) {
        0 => cfg.battery_critical_pct = beside(random, low),
        1 => cfg.battery_low_pct = beside(random, warn),
        2 => cfg.battery_low_clear_pct = beside(random, low),
        _ => cfg.battery_warn_clear_pct = beside(random, warn),
    }
}

/// A ring with a corner in the middle between its neighbours, or a float beside it: its turn is about 0.
fn straight_fence(random: &mut Random, h_rtl: f32) -> Vec<u8> {
    let radius = random.one_of(&[150.0, 9000.0]);
    let count = 5 + random.below(6);
    let mut points = random::circle(random, count, radius, (0.0, 0.0));
    let (a, c) = (points[0], points[2]);
    points[1] = (
        beside(random, (a.0 + c.0) / 2.0),
        beside(random, (a.1 + c.1) / 2.0),
    );
    if random.chance(2) {
        points.reverse();
    }
    fence_frame(h_rtl - 25.0, h_rtl + 90.0, &points)
}

/// A box with a side or a corner at home or a float beside it, an area at its limit of 100, or an altitude at h_rtl.
fn limit_fence(random: &mut Random, h_rtl: f32) -> Vec<u8> {
    let edge = random.one_of(&[0.0, -0.0, 1e-40, -1e-40, 5e-4, -5e-4, -30.0]);
    let (wide, deep) = random.one_of(&[(10.0, 10.0), (5.0, 20.0), (400.0, 90.0), (2000.0, 60.0)]);
    let deep = beside(random, deep);
    let east = random.one_of(&[0.0, -0.0, -5.0, -wide]);
    let mut points = [
        (edge, east),
        (edge, east + wide),
        (edge + deep, east + wide),
        (edge + deep, east),
    ];
    if random.chance(2) {
        points.reverse();
    }
    if random.chance(2) {
        points = points.map(|(n, e)| (e, n));
    }
    let (low, high) = (h_rtl - 25.0, h_rtl + 90.0);
    match random.below(3) {
        0 => fence_frame(beside(random, h_rtl), high, &points),
        1 => fence_frame(low, beside(random, h_rtl), &points),
        _ => fence_frame(low, high, &points),
    }
}

fn random_config(random: &mut Random) -> Config {
    let mut frame = config_frame(&Config::default());
    let kind = random.below(8);
    if kind < 2 {
        return Config::default();
    }
    let longest = random.one_of(&[10, 1000, 6000, 600_000]);
    for field in FREE_DURATIONS {
        if random.chance(2) {
            put(&mut frame, field, random.below(longest) as u32);
        }
        if kind == 7 && random.chance(8) {
            let odd = [0, 1, 0x7FFF_FFFE, 0x7FFF_FFFF, 0x8000_0000, u32::MAX];
            put(&mut frame, field, random.one_of(&odd));
        }
    }
    for field in BOUND_DURATIONS {
        if random.chance(2) {
            let any = 1 + random.below(longest) as u32;
            let ms = random.one_of(&[1, 2, any, any, 600_000]);
            put(&mut frame, field, ms);
        }
    }
    let mut cfg: Config = read_frame(CONFIG, &frame).expect("a configuration frame");
    if random.chance(2) {
        cfg.rc_required = random.chance(2);
        cfg.cell_count = 1 + random.below(14) as u8;
        cfg.v_max = random.one_of(&[25.0, 200.0, 1e6, 0.0]);
        cfg.usable_capacity_wh = random.between(1.0, 200.0);
        cfg.h_rtl = random.between(5.0, 110.0);
        cfg.reserve_wh = random.between(0.0, 10.0);
        cfg.k_wind = random.between(0.5, 2.0);
        cfg.p_cruise = random.between(0.0, 800.0);
        // Only below 0 does the Rust's timer alt_max_clear ever run.
        cfg.alt_max_clear_m = random.one_of(&[5.0, 0.0, -20.0]);
    }
    if kind == 6 {
        let mut frame = config_frame(&cfg);
        for field in FREE_FLOATS {
            if random.chance(4) {
                put(&mut frame, field, random.special().to_bits());
            }
        }
        cfg = read_frame(CONFIG, &frame).expect("a configuration frame");
    }
    cfg
}

fn random_fence(random: &mut Random, h_rtl: f32) -> Vec<u8> {
    if random.chance(3) {
        return fence_frame(5.0, 120.0, &SQUARE);
    }
    let corners = 3 + random.below(14);
    let radius = random.one_of(&[20.0, 150.0, 800.0, 4000.0]);
    let off = radius as f32 * 0.4;
    let middle = (
        random.between(-off, off) as f64,
        random.between(-off, off) as f64,
    );
    let mut points = random::circle(random, corners, radius, middle);
    if random.chance(2) {
        points.reverse();
    }
    let low = h_rtl - random.between(0.0, 50.0);
    let high = h_rtl + random.between(0.0, 100.0);
    fence_frame(low, high, &points)
}
