//! Calls that are drawn: fresh states, flights with refused calls and other states beside them, edits of areas.

use flights::{
    Both, Pilot, Setup, area_body, area_frame, areas_frame, damage, once_round, ring_near,
};
use frames::{AREAS_HELD, STATE_FRAME, TELEMETRY, TELEMETRY_FRAME, put_frame, read_areas};
use random::Random;

use crate::faults::{STAGES, Stage, heads, spoil};
use crate::rows::{Call, Entry, Rows};

/// What an output has before a call.
fn untouched(size: usize) -> Vec<u8> {
    vec![0x5A; size]
}

/// The first step under the defaults, with an area near by.
pub fn sound(random: &mut Random) -> Call {
    let setup = Setup::defaults();
    let both = Both::new(&setup.config, &setup.fence).expect("an accepted configuration");
    let t = Pilot::new(random).next(random, &setup, &both.state());
    let mut telemetry = vec![0; TELEMETRY_FRAME];
    put_frame(TELEMETRY, &t, &mut telemetry);
    Call {
        config: setup.config.to_vec(),
        fence: setup.fence,
        state: both.state_frame().to_vec(),
        telemetry,
        output: untouched(100),
        areas: areas_frame(&[area_body(9, &[(90.0, 0.0), (90.0, 30.0), (120.0, 0.0)])]),
        ..Call::default()
    }
}

/// A fresh state in slices of any length.
pub fn fresh(rows: &mut Rows, random: &mut Random) {
    for size in [0, 1, 2, 185, 186, 187, 250] {
        let mut call = Call {
            state: (0..size).map(|_| random.u32() as u8).collect(),
            ..Call::default()
        };
        rows.call(Entry::Fresh, &mut call);
    }
}

/// Areas near the place of a telemetry frame, each of them accepted.
fn areas_near(random: &mut Random, telemetry: &[u8]) -> Vec<u8> {
    let real = |at: usize| f32::from_le_bytes(std::array::from_fn(|k| telemetry[at + k]));
    let mut bodies = Vec::new();
    for number in 1..=random.below(3) as u8 {
        let far = random.one_of(&[0.0, 5.0, 10.0, -1.0]);
        let ring = ring_near(random, (real(13), real(17)), far);
        let body = area_body(20 * number, &ring[..ring.len().min(4)]);
        if read_areas(&areas_frame(&[body.clone()])).is_ok() {
            bodies.push(body);
        }
    }
    areas_frame(&bodies)
}

fn setups(random: &mut Random) -> Vec<Setup> {
    let mut all = vec![Setup::defaults()];
    all.extend((0..4).map(|_| Setup::random(random)));
    let round = all[1].fenced(once_round(all[1].fence.clone()));
    all.extend(round);
    all
}

/// Flights whose steps go by all three entries, with refused calls and steps from other states beside them.
pub fn flights(rows: &mut Rows, random: &mut Random) {
    for setup in setups(random) {
        let mut both = Both::new(&setup.config, &setup.fence).expect("an accepted configuration");
        let mut pilot = Pilot::new(random);
        let mut call = Call {
            config: setup.config.to_vec(),
            fence: setup.fence.clone(),
            state: vec![0; STATE_FRAME],
            ..Call::default()
        };
        rows.call(Entry::Fresh, &mut call);
        rows.call(Entry::Check, &mut call);
        for _ in 0..16 {
            let t = pilot.next(random, &setup, &both.state());
            call.telemetry = vec![0; TELEMETRY_FRAME];
            put_frame(TELEMETRY, &t, &mut call.telemetry);
            call.output = untouched(96 + random.below(3));
            call.areas = areas_near(random, &call.telemetry);
            beside(rows, random, &call);
            both.step(&call.telemetry);
            let entry = random.one_of(&[Entry::Step, Entry::Side, Entry::Areas]);
            let mut other = call.clone();
            if entry == Entry::Areas {
                assert_eq!(rows.call(entry, &mut other), 0);
            }
            let entry = random.one_of(&[Entry::Step, Entry::Side]);
            assert_eq!(rows.call(entry, &mut call), 0);
            assert_eq!(call.state, both.state_frame());
        }
    }
}

/// A refused call, and a step from another state.
fn beside(rows: &mut Rows, random: &mut Random, call: &Call) {
    let entry = random.one_of(&[Entry::Step, Entry::Side, Entry::Areas]);
    let mut refused = call.clone();
    let stage = random.one_of(&STAGES);
    if stage != Stage::FenceRules && stage != Stage::ConfigRules {
        spoil(random, &mut refused, stage);
        rows.call(entry, &mut refused);
    }
    let mut odd = call.clone();
    other_state(random, &mut odd);
    rows.call(entry, &mut odd);
    if random.chance(2) {
        rows.call(entry, &mut odd);
    }
}

/// Timers, samples and flags that no flight leaves together.
fn other_state(random: &mut Random, call: &mut Call) {
    let now = u32::from_le_bytes(std::array::from_fn(|k| call.telemetry[4 + k]));
    for _ in 0..1 + random.below(12) {
        let ms = random.one_of(&[now, now.wrapping_sub(5000), now.wrapping_add(1), 0, 1 << 31]);
        // The 25 timers, the recovery's start, the disarm hold and the last reading.
        let at = match random.below(28) {
            24 => 127,
            25 => 135,
            26 => 140,
            27 => 175,
            timer => 6 + 5 * timer,
        };
        match random.below(9) {
            0..=2 => put_option(&mut call.state[at..at + 5], Some(ms)),
            3 => put_option(&mut call.state[at..at + 5], None),
            4 => call.state[145..174].fill(0),
            5 => put_sample(&mut call.state[145..174], ms, random),
            6 => call.state[174] = random.one_of(&[0, 2, 3, 4, 254, 255]),
            7 => call.state[180..184].copy_from_slice(&ms.to_le_bytes()),
            _ => {
                let byte = random.one_of(&[4, 5, 126, 132, 133, 134, 184, 185]);
                call.state[byte] = random.below(5) as u8;
            }
        }
    }
}

fn put_option(to: &mut [u8], value: Option<u32>) {
    to.fill(0);
    if let Some(ms) = value {
        to[0] = 1;
        to[1..].copy_from_slice(&ms.to_le_bytes());
    }
}

/// A stored sample near the fence or far off; now and then a number that no state may hold.
fn put_sample(to: &mut [u8], ms: u32, random: &mut Random) {
    put_option(&mut to[..5], Some(ms));
    for number in to[5..].chunks_exact_mut(4) {
        let x = random.one_of(&[0.0, -0.0, 2.5, -20.0, 499.0, 501.0, 1e-40, f32::MAX]);
        let x = if random.chance(60) { f32::NAN } else { x };
        number.copy_from_slice(&x.to_le_bytes());
    }
}

/// Areas put in and taken out, one after the other, and refused edits among them.
pub fn edits(rows: &mut Rows, random: &mut Random) {
    let mut call = Call::default();
    for k in 0..70 {
        let number = random.one_of(&[0, 1, 2, 3, 7, 8, 9, 200, 254, 255, 40, 41]);
        let far = random.one_of(&[20.0, 60.0, 60.0, 60.0, -30.0]);
        let home = if k % 5 == 0 { 0.0 } else { 300.0 };
        let mut ring = ring_near(random, (home, 0.0), far);
        ring.truncate(4);
        if k % 9 == 4 {
            ring = star_ring();
        }
        call.area = area_frame(&area_body(number, &ring));
        call.number = number;
        call.output = untouched(if k % 11 == 7 { 40 } else { 420 });
        let entry = random.one_of(&[Entry::Add, Entry::Add, Entry::Add, Entry::Remove]);
        let mut edited = call.clone();
        if random.chance(5) {
            let which = random.chance(2) && entry == Entry::Add;
            damage(
                random,
                if which {
                    &mut edited.area
                } else {
                    &mut edited.areas
                },
            );
        }
        let sound = edited.area == call.area && edited.areas == call.areas;
        if rows.call(entry, &mut edited) == 0 && sound {
            let size = 2 + u16::from_le_bytes([edited.output[0], edited.output[1]]) as usize;
            call.areas = edited.output[..size].to_vec();
        }
    }
    ninth(rows, random);
}

/// Five corners round home, each joined with the second next.
fn star_ring() -> Vec<(f32, f32)> {
    let round = [
        (80.0, 0.0),
        (25.0, 76.0),
        (-65.0, 47.0),
        (-65.0, -47.0),
        (25.0, -76.0),
    ];
    (0..5)
        .map(|i| round[i * 2 % 5])
        .map(|(n, e)| (n + 400.0, e))
        .collect()
}

/// Eight areas, and one more; the same number again, and one that is not there; outputs without the room.
fn ninth(rows: &mut Rows, random: &mut Random) {
    let ring = [(90.0, 0.0), (90.0, 30.0), (120.0, 0.0)];
    let bodies: Vec<Vec<u8>> = (1..=AREAS_HELD as u8)
        .map(|n| area_body(10 * n, &ring))
        .collect();
    let room = 300 + random.below(2);
    let edits = [
        (8, Entry::Add, 5, room),
        (8, Entry::Add, 10, room),
        (8, Entry::Remove, 80, room),
        (8, Entry::Remove, 81, room),
        (8, Entry::Remove, 80, 186),
        (8, Entry::Remove, 80, 187),
        (7, Entry::Add, 5, 212),
        (7, Entry::Add, 5, 213),
    ];
    for (held, entry, number, room) in edits {
        let mut call = Call {
            areas: areas_frame(&bodies[..held]),
            area: area_frame(&area_body(number, &ring)),
            output: untouched(room),
            number,
            ..Call::default()
        };
        rows.call(entry, &mut call);
    }
    let sound = Call {
        areas: areas_frame(&bodies[..2]),
        area: area_frame(&area_body(5, &ring)),
        output: untouched(100),
        number: 10,
        ..Call::default()
    };
    let round_home = [(-50.0, -50.0), (-50.0, 50.0), (50.0, 50.0), (50.0, -50.0)];
    let mut home = sound.clone();
    home.area = area_frame(&area_body(6, &round_home));
    rows.call(Entry::Add, &mut home);
    for (areas, area) in heads(&sound.areas).into_iter().zip(heads(&sound.area)) {
        let mut call = sound.clone();
        call.area = area;
        rows.call(Entry::Add, &mut call);
        call.areas = areas;
        rows.call(Entry::Add, &mut call);
        rows.call(Entry::Remove, &mut call);
    }
}
