//! Energies for the way home.

use failsafe_core::{Config, Vec3, rtl_energy};

use crate::rows::{Asks, Rows, answered, given};
use random::Random;

/// What a row gives: the position, what remains, and the Config's last ten fields.
fn add_row(rows: &mut Rows, pos: Vec3, remaining: Option<f32>, last: [f32; 10]) {
    let [
        v_cruise,
        p_cruise,
        k_wind,
        v_climb,
        p_climb,
        v_desc,
        p_desc,
        h_rtl,
        reserve_wh,
        v_max,
    ] = last;
    let config = Config {
        v_cruise,
        p_cruise,
        k_wind,
        v_climb,
        p_climb,
        v_desc,
        p_desc,
        h_rtl,
        reserve_wh,
        v_max,
        ..Config::default()
    };
    let mut asked = vec![given(pos.n), given(pos.e), given(pos.d)];
    asked.extend([remaining.is_some() as u32, remaining.map_or(0, given)]);
    asked.extend(last.map(given));
    let e = rtl_energy(&config, pos, remaining);
    let answer = [
        answered(e.rtl_wh),
        answered(e.land_wh),
        answered(e.reserve_wh),
        e.remaining_wh.is_some() as u32,
        e.remaining_wh.map_or(0, answered),
        e.margin_wh.is_some() as u32,
        e.margin_wh.map_or(0, answered),
        e.insufficient_for_landing as u32,
    ];
    rows.add(Asks::Energy, &asked, &answer);
}

const LAST: [f32; 10] = [10.0, 350.0, 1.25, 2.0, 400.0, 1.5, 300.0, 30.0, 8.0, 25.0];

pub fn add(rows: &mut Rows, random: &mut Random) {
    usual(rows, random);
    special(rows, random);
    limits(rows, random);
}

/// The default Config over the whole field, also below ground and above h_rtl.
fn usual(rows: &mut Rows, random: &mut Random) {
    for d in [
        0.0,
        -0.0,
        -30.0,
        30.0,
        -29.999_998,
        -30.000_002,
        -120.0,
        5.0,
    ] {
        for remaining in [None, Some(0.0), Some(-0.0), Some(20.0)] {
            add_row(rows, Vec3 { n: 0.0, e: 0.0, d }, remaining, LAST);
        }
    }
    for _ in 0..200 {
        let pos = Vec3 {
            n: random.between(-600.0, 600.0),
            e: random.between(-600.0, 600.0),
            d: random.between(-150.0, 20.0),
        };
        let remaining = if random.chance(4) {
            None
        } else {
            Some(random.between(0.0, 40.0))
        };
        let mut last = LAST;
        if random.chance(2) {
            for x in &mut last {
                *x *= random.between(0.2, 3.0);
            }
        }
        add_row(rows, pos, remaining, last);
    }
}

/// Zeros, subnormals, infinities and NaNs in any place.
fn special(rows: &mut Rows, random: &mut Random) {
    for n in 0..300 {
        let mut last = LAST;
        let mut one_in = |usual: f32, n: usize| {
            if random.chance(n) {
                random.special()
            } else {
                usual
            }
        };
        let pos = Vec3 {
            n: one_in(30.0, 3),
            e: one_in(-40.0, 3),
            d: one_in(-50.0, 3),
        };
        let remaining = one_in(12.0, 2);
        for x in &mut last {
            *x = one_in(*x, 4);
        }
        let remaining = if n % 5 == 0 { None } else { Some(remaining) };
        add_row(rows, pos, remaining, last);
    }
}

/// What remains at the energy to land and one float to either side, and sizes of every order.
fn limits(rows: &mut Rows, random: &mut Random) {
    for _ in 0..60 {
        let pos = Vec3 {
            n: random.scaled(),
            e: random.scaled(),
            d: -random.between(1.0, 200.0),
        };
        let land = rtl_energy(&Config::default(), pos, None).land_wh;
        for k in [-1, 0, 1] {
            add_row(rows, pos, Some(random::nudged(land, k)), LAST);
        }
    }
}
