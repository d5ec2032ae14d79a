//! The defaults, and what `validate_config` accepts.

use failsafe_core::{
    Config, ConfigError, ConvexPolygon, Geofence, Point2, default_fence, validate_config,
};

use crate::polygons::{Corners, circle, corners, fence_words, good, polygon_words};
use crate::rows::{Asks, Rows, config_number, given};
use random::{Random, nudged};

/// Reads or writes a field of a Config as a word.
trait Word {
    fn get(&self) -> u32;
    fn put(&mut self, word: u32);
}

impl Word for u8 {
    fn get(&self) -> u32 {
        *self as u32
    }
    fn put(&mut self, word: u32) {
        *self = word as u8;
    }
}

impl Word for u32 {
    fn get(&self) -> u32 {
        *self
    }
    fn put(&mut self, word: u32) {
        *self = word;
    }
}

impl Word for f32 {
    fn get(&self) -> u32 {
        given(*self)
    }
    fn put(&mut self, word: u32) {
        *self = f32::from_bits(word);
    }
}

impl Word for bool {
    fn get(&self) -> u32 {
        *self as u32
    }
    fn put(&mut self, word: u32) {
        *self = word % 2 == 1;
    }
}

/// The fields in declared order.
fn fields(c: &mut Config) -> [&mut dyn Word; 62] {
    [
        &mut c.cell_count,
        &mut c.usable_capacity_wh,
        &mut c.rc_required,
        &mut c.pos_fresh_ms,
        &mut c.gps_fresh_ms,
        &mut c.status_fresh_ms,
        &mut c.battery_fresh_ms,
        &mut c.recovery_hold_ms,
        &mut c.gcs_warn_ms,
        &mut c.gcs_hold_ms,
        &mut c.gcs_rtl_ms,
        &mut c.gcs_clear_ms,
        &mut c.gcs_clear_hold_ms,
        &mut c.rc_lost_set_ms,
        &mut c.rc_lost_clear_ms,
        &mut c.gps_degraded_set_ms,
        &mut c.gps_degraded_clear_ms,
        &mut c.gps_lost_set_ms,
        &mut c.gps_lost_clear_ms,
        &mut c.ekf_unhealthy_set_ms,
        &mut c.ekf_unhealthy_clear_ms,
        &mut c.fence_approach_m,
        &mut c.fence_approach_clear_m,
        &mut c.fence_breach_set_ms,
        &mut c.fence_breach_clear_m,
        &mut c.fence_breach_clear_ms,
        &mut c.alt_max_clear_m,
        &mut c.alt_max_set_ms,
        &mut c.alt_max_clear_hold_ms,
        &mut c.alt_min_home_radius_m,
        &mut c.alt_min_set_ms,
        &mut c.alt_min_clear_m,
        &mut c.alt_min_clear_ms,
        &mut c.stale_battery_clear_ms,
        &mut c.battery_warn_pct,
        &mut c.battery_warn_clear_pct,
        &mut c.battery_warn_set_ms,
        &mut c.battery_warn_clear_ms,
        &mut c.battery_low_pct,
        &mut c.battery_low_clear_pct,
        &mut c.battery_low_set_ms,
        &mut c.battery_low_clear_ms,
        &mut c.battery_critical_pct,
        &mut c.battery_critical_v_per_cell,
        &mut c.battery_critical_set_ms,
        &mut c.energy_marginal_wh,
        &mut c.energy_marginal_clear_wh,
        &mut c.energy_marginal_set_ms,
        &mut c.energy_marginal_clear_ms,
        &mut c.energy_infeasible_set_ms,
        &mut c.invalid_input_clear_ms,
        &mut c.disarm_hold_ms,
        &mut c.v_cruise,
        &mut c.p_cruise,
        &mut c.k_wind,
        &mut c.v_climb,
        &mut c.p_climb,
        &mut c.v_desc,
        &mut c.p_desc,
        &mut c.h_rtl,
        &mut c.reserve_wh,
        &mut c.v_max,
    ]
}

pub fn words(config: &Config) -> [u32; 62] {
    let mut copy = *config;
    fields(&mut copy).map(|field| field.get())
}

fn with(config: &Config, changes: &[(usize, u32)]) -> Config {
    let mut copy = *config;
    for &(field, word) in changes {
        fields(&mut copy)[field].put(word);
    }
    copy
}

const CELLS: usize = 0;
const CAPACITY: usize = 1;
const WARN_PCT: usize = 34;
const WARN_CLEAR_PCT: usize = 35;
const LOW_PCT: usize = 38;
const LOW_CLEAR_PCT: usize = 39;
const CRITICAL_PCT: usize = 42;
const H_RTL: usize = 59;
const RESERVE: usize = 60;
const DURATIONS: [usize; 4] = [7, 8, 51, 49];
const SPEEDS: [usize; 3] = [52, 55, 57];
const POWERS: [usize; 4] = [53, 56, 58, RESERVE];
/// Floats that no rule looks at.
const FREE: [usize; 10] = [21, 22, 24, 26, 29, 31, 43, 45, 46, 54];

struct Fence {
    points: Corners,
    min: f32,
    max: f32,
}

fn square() -> Fence {
    Fence {
        points: corners(&[
            (-500.0, -500.0),
            (-500.0, 500.0),
            (500.0, 500.0),
            (500.0, -500.0),
        ]),
        min: 5.0,
        max: 120.0,
    }
}

fn add_row(rows: &mut Rows, config: &Config, fence: &Fence) {
    let built = ConvexPolygon::new(&fence.points)
        .and_then(|poly| Geofence::new(poly, fence.min, fence.max));
    let verdict = match built {
        Ok(built) => validate_config(config, &built),
        Err(error) => Err(ConfigError::Fence(error)),
    };
    let mut asked = vec![given(fence.min), given(fence.max)];
    asked.extend(words(config));
    asked.extend(polygon_words(&fence.points));
    let number = verdict.map_or_else(config_number, |()| 0);
    rows.add(Asks::Validate, &asked, &[number]);
}

pub fn add(rows: &mut Rows, random: &mut Random) {
    rows.add(Asks::Defaults, &[], &words(&Config::default()));
    rows.add(Asks::DefaultFence, &[], &fence_words(default_fence()));
    edges(rows);
    free(rows, random);
    homes(rows, random);
    pairs(rows, random);
}

/// Each checked field alone, at values around its bounds.
fn edges(rows: &mut Rows) {
    let base = Config::default();
    let mut changes: Vec<Vec<(usize, u32)>> = vec![vec![]];
    for cells in [0, 1, 2, 13, 14, 15, 128, 255] {
        changes.push(vec![(CELLS, cells)]);
    }
    let odd = [
        0.0,
        -0.0,
        f32::from_bits(1),
        -f32::from_bits(1),
        1e-30,
        -1.0,
        f32::MAX,
        f32::MIN,
    ];
    let unfit = [f32::NAN, f32::INFINITY, f32::NEG_INFINITY];
    for field in [CAPACITY, H_RTL].into_iter().chain(SPEEDS).chain(POWERS) {
        for x in odd.into_iter().chain(unfit) {
            changes.push(vec![(field, given(x))]);
        }
    }
    for field in DURATIONS {
        for ms in [
            0,
            1,
            2,
            599_999,
            600_000,
            600_001,
            0x7FFF_FFFF,
            0x8000_0000,
            0xFFFF_FFFF,
        ] {
            changes.push(vec![(field, ms)]);
        }
    }
    let orders = [
        (WARN_PCT, base.battery_low_pct),
        (WARN_PCT, base.battery_warn_clear_pct),
        (LOW_PCT, base.battery_critical_pct),
        (LOW_PCT, base.battery_warn_pct),
        (LOW_PCT, base.battery_low_clear_pct),
        (CRITICAL_PCT, base.battery_low_pct),
        (WARN_CLEAR_PCT, base.battery_warn_pct),
        (LOW_CLEAR_PCT, base.battery_low_pct),
    ];
    for (field, bound) in orders {
        for x in [
            nudged(bound, -1),
            bound,
            nudged(bound, 1),
            f32::NAN,
            f32::INFINITY,
            f32::NEG_INFINITY,
        ] {
            changes.push(vec![(field, given(x))]);
        }
    }
    for x in [
        nudged(5.0, -1),
        5.0,
        nudged(5.0, 1),
        nudged(120.0, -1),
        120.0,
        nudged(120.0, 1),
    ] {
        changes.push(vec![(H_RTL, given(x))]);
    }
    for change in changes {
        add_row(rows, &with(&base, &change), &square());
    }
}

/// Anything in the fields that no rule looks at.
fn free(rows: &mut Rows, random: &mut Random) {
    for _ in 0..40 {
        let mut config = with(&Config::default(), &[(2, random.u32())]);
        for field in 3..62 {
            let checked = DURATIONS.contains(&field) || (34..=42).contains(&field) || field > 51;
            if FREE.contains(&field) {
                config = with(&config, &[(field, given(random.special()))]);
            } else if !checked {
                config = with(&config, &[(field, random.u32())]);
            }
        }
        add_row(rows, &config, &square());
    }
}

/// Fences with home inside, on a side, at a corner and just outside, and altitudes around h_rtl.
fn homes(rows: &mut Rows, random: &mut Random) {
    let base = Config::default();
    let tiny = f32::from_bits(1);
    for side in [
        0.0, -0.0, tiny, -tiny, 1e-6, -1e-6, 1e-3, -1e-3, 20.0, -20.0,
    ] {
        let points = corners(&[
            (side, -500.0),
            (side, 500.0),
            (500.0, 500.0),
            (500.0, -500.0),
        ]);
        for points in [points.clone(), points.into_iter().rev().collect()] {
            add_row(rows, &base, &Fence { points, ..square() });
        }
    }
    let at_corner = corners(&[(0.0, 0.0), (0.0, 300.0), (300.0, 0.0)]);
    add_row(
        rows,
        &base,
        &Fence {
            points: at_corner,
            ..square()
        },
    );
    for _ in 0..40 {
        let fence = Fence {
            points: good(random),
            min: random.between(-50.0, 35.0),
            max: random.between(25.0, 150.0),
        };
        add_row(rows, &base, &fence);
    }
    for (min, max) in [
        (30.0, 31.0),
        (29.0, 30.0),
        (nudged(30.0, 1), 40.0),
        (0.0, nudged(30.0, -1)),
        (7.0, 7.0),
        (f32::NAN, 40.0),
    ] {
        add_row(
            rows,
            &base,
            &Fence {
                min,
                max,
                ..square()
            },
        );
    }
}

/// Breaks one rule; the ways are the order in which the rules are looked at.
fn spoil(random: &mut Random, config: &Config, fence: &mut Fence, way: usize) -> Config {
    let unfit = given(random.one_of(&[f32::NAN, f32::INFINITY, f32::NEG_INFINITY]));
    let negative = given(random.one_of(&[-1.0, -1e-30, -f32::from_bits(1)]));
    let checked = [52, 53, 55, 56, 57, 58, H_RTL, RESERVE];
    match way {
        0 => with(config, &[(CELLS, random.one_of(&[0, 15, 200]))]),
        1 => with(config, &[(CAPACITY, random.one_of(&[unfit, negative, 0]))]),
        2 => with(config, &[(random.one_of(&checked), unfit)]),
        3 => with(
            config,
            &[(
                random.one_of(&SPEEDS),
                random.one_of(&[negative, 0, 0x8000_0000]),
            )],
        ),
        4 => with(config, &[(random.one_of(&POWERS), negative)]),
        5 => with(
            config,
            &[(
                random.one_of(&[WARN_PCT, WARN_CLEAR_PCT, LOW_CLEAR_PCT]),
                given(20.0),
            )],
        ),
        6 => with(
            config,
            &[(
                random.one_of(&DURATIONS),
                random.one_of(&[0, 600_001, u32::MAX]),
            )],
        ),
        7 => {
            fence.points = corners(&[(10.0, -50.0), (10.0, 50.0), (90.0, 50.0), (90.0, -50.0)]);
            *config
        }
        8 => {
            (fence.min, fence.max) = random.one_of(&[(5.0, 29.0), (31.0, 120.0)]);
            *config
        }
        _ => {
            fence.points = circle(random, 4, 300.0, (0.0, 0.0));
            fence.points[2] = Point2 {
                n: 10_001.0,
                e: 0.0,
            };
            *config
        }
    }
}

/// Every two rules broken at once: the earlier one's error is answered.
fn pairs(rows: &mut Rows, random: &mut Random) {
    for first in 0..10 {
        for second in 0..10 {
            let mut fence = square();
            let config = spoil(random, &Config::default(), &mut fence, first.max(second));
            let config = spoil(random, &config, &mut fence, first.min(second));
            add_row(rows, &config, &fence);
        }
    }
}
