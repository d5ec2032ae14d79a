//! Ages, the numbers of the enums, the active set, Vec3, and libm's three functions.

use failsafe_core::{Action, ActiveSet, Reason, Request, Vec3, age_ms};
use failsafe_modules::time::is_fresh;

use crate::rows::{Asks, Rows, answered, given};
use random::{Random, SPECIAL};

const ACTIONS: [Action; 5] = [
    Action::Nominal,
    Action::Warn,
    Action::Hold,
    Action::ReturnToLaunch,
    Action::Land,
];

pub fn add(rows: &mut Rows, random: &mut Random) {
    ages(rows, random);
    numbers(rows);
    sets(rows, random);
    filings(rows, random);
    floats(rows, random);
}

fn ages(rows: &mut Rows, random: &mut Random) {
    let mut pairs = vec![(5, 4_294_967_291), (0x7FFF_FFFF, 0), (0x8000_0000, 0)];
    for then in [
        0,
        1,
        1000,
        0x7FFF_FFFF,
        0x8000_0000,
        0xFFFF_FFFF,
        0xFFFF_FC00,
    ] {
        for age in [
            0u32,
            1,
            999,
            1000,
            1001,
            0x7FFF_FFFF,
            0x8000_0000,
            0x8000_0001,
            0xFFFF_FFFF,
        ] {
            pairs.push((age.wrapping_add(then), then));
        }
    }
    for _ in 0..80 {
        pairs.push((random.u32(), random.u32()));
    }
    for (now, then) in pairs {
        let age = age_ms(now, then);
        rows.add(
            Asks::Age,
            &[now, then],
            &[age.is_some() as u32, age.unwrap_or(0)],
        );
        let near = now.wrapping_sub(then);
        for limit in [
            near.wrapping_sub(1),
            near,
            near.wrapping_add(1),
            random.u32(),
        ] {
            rows.add(
                Asks::Fresh,
                &[now, then, limit],
                &[is_fresh(now, then, limit) as u32],
            );
        }
    }
}

fn numbers(rows: &mut Rows) {
    for i in (0..=20).chain([255, 256, 0x7FFF_FFFF, 0xFFFF_FFFF]) {
        let answer = match Reason::from_index(i as usize) {
            Some(reason) => [1, reason.index() as u32, reason.display_priority() as u32],
            None => [0, 0, 0],
        };
        rows.add(Asks::Reason, &[i], &answer);
    }
    for (i, action) in ACTIONS.iter().enumerate() {
        rows.add(Asks::Action, &[i as u32], &[action.rank() as u32]);
    }
}

fn reason(random: &mut Random) -> Reason {
    Reason::from_index(random.below(19)).expect("below 19")
}

/// A slot as a word: a byte each for presence, reason and action.
fn slot(request: Option<Request>) -> u32 {
    match request {
        Some(r) => 0x1_0000 + ((r.reason.index() as u32) << 8) + r.action.rank() as u32,
        None => 0,
    }
}

fn requested(set: &ActiveSet) -> [u32; 2] {
    let (action, reason) = set.requested_action();
    [action.rank() as u32, reason.index() as u32]
}

fn add_set(rows: &mut Rows, set: ActiveSet) {
    let slots = set.reqs.map(slot);
    rows.add(Asks::Requested, &slots, &requested(&set));
}

/// `requested_action` on sets of any slots, also such as name another reason than the slot's own.
fn sets(rows: &mut Rows, random: &mut Random) {
    add_set(rows, ActiveSet::new());
    for i in 0..19 {
        for j in i..19 {
            let mut set = ActiveSet::new();
            let action = random.one_of(&ACTIONS);
            for k in [i, j] {
                set.set(Reason::from_index(k).expect("below 19"), action);
            }
            add_set(rows, set);
        }
    }
    for n in 0..200 {
        let mut set = ActiveSet::new();
        let one_in = 1 + random.below(6);
        let few = 1 + random.below(5);
        for i in 0..19 {
            if random.chance(one_in) {
                let own = Reason::from_index(i).expect("below 19");
                let reason = if n % 2 == 0 { own } else { reason(random) };
                let action = ACTIONS[random.below(few)];
                set.reqs[i] = Some(Request { reason, action });
            }
        }
        add_set(rows, set);
    }
}

/// Requests filed and cleared one after the other, from an empty set.
fn filings(rows: &mut Rows, random: &mut Random) {
    for n in 0..120 {
        let mut set = ActiveSet::new();
        let mut steps = Vec::new();
        for _ in 0..n / 3 {
            let request = Request {
                reason: reason(random),
                action: random.one_of(&ACTIONS),
            };
            if random.chance(4) {
                set.clear(request.reason);
                steps.push(slot(Some(request)) - 0x1_0000);
            } else {
                set.set(request.reason, request.action);
                steps.push(slot(Some(request)));
            }
        }
        let mut answer = requested(&set).to_vec();
        answer.extend(set.reqs.map(slot));
        rows.add(Asks::Filed, &steps, &answer);
    }
}

fn floats(rows: &mut Rows, random: &mut Random) {
    for x in SPECIAL {
        for y in SPECIAL {
            libm_row(rows, f32::from_bits(x), f32::from_bits(y));
        }
    }
    for _ in 0..60 {
        libm_row(rows, random.any(), random.any());
    }
    for n in 0..150 {
        let mut one = || match n % 3 {
            0 => random.special(),
            1 => random.scaled(),
            _ => random.between(-600.0, 600.0),
        };
        let v = Vec3 {
            n: one(),
            e: one(),
            d: one(),
        };
        let asked = [given(v.n), given(v.e), given(v.d)];
        rows.add(
            Asks::Vec3,
            &asked,
            &[answered(v.alt_m()), answered(v.horizontal_dist_home())],
        );
    }
}

fn libm_row(rows: &mut Rows, x: f32, y: f32) {
    let answer = [
        answered(libm::fabsf(x)),
        answered(libm::fmaxf(x, y)),
        answered(libm::sqrtf(x)),
    ];
    rows.add(Asks::Libm, &[given(x), given(y)], &answer);
}
