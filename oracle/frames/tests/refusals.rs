//! Document 01's table of refusals and its order, case by case, of the plain Rust entries; and document 02's of areas.

use frames::{
    DECISION_FRAME, SIDE_FRAME, STATE_FRAME, fresh_entry, put_frame, step_areas_entry, step_entry,
};

#[derive(Clone)]
struct Call {
    config: Vec<u8>,
    fence: Vec<u8>,
    state: Vec<u8>,
    telemetry: Vec<u8>,
    output: Vec<u8>,
    areas: Vec<u8>,
}

/// The defaults, a fresh state, an all-absent telemetry at 0.
fn sound() -> Call {
    let mut config = vec![0; 246];
    put_frame(1, &failsafe_open::Config::default(), &mut config);
    let mut fence = vec![43, 0, 2, 0, 4];
    for x in [
        5f32, 120.0, -500.0, -500.0, -500.0, 500.0, 500.0, 500.0, 500.0, -500.0,
    ] {
        fence.extend(x.to_le_bytes());
    }
    let mut state = vec![0; STATE_FRAME];
    assert_eq!(fresh_entry(&mut state), 0);
    let mut telemetry = vec![0; 106];
    telemetry[..4].copy_from_slice(&[104, 0, 3, 0]);
    Call {
        config,
        fence,
        state,
        telemetry,
        output: vec![0xEE; 100],
        areas: areas(&[(3, yard(100.0)), (9, yard(200.0))]),
    }
}

/// A square of 20 m, whose nearest side is that far north.
fn yard(north: f32) -> Vec<(f32, f32)> {
    let far = north + 20.0;
    vec![(north, -10.0), (north, 10.0), (far, 10.0), (far, -10.0)]
}

/// A frame of areas: number and corners of each.
fn areas(all: &[(u8, Vec<(f32, f32)>)]) -> Vec<u8> {
    let mut frame = vec![0, 0, 13, 0, all.len() as u8];
    for (number, corners) in all {
        frame.extend([*number, corners.len() as u8]);
        for (n, e) in corners {
            frame.extend(n.to_le_bytes());
            frame.extend(e.to_le_bytes());
        }
    }
    let length = (frame.len() - 2) as u16;
    frame[..2].copy_from_slice(&length.to_le_bytes());
    frame
}

/// The number for a sound call after a change; a declined call leaves state and output.
fn number(change: impl Fn(&mut Call)) -> u32 {
    judged(change, DECISION_FRAME, |c| {
        step_entry(
            &c.config,
            &c.fence,
            &mut c.state,
            &c.telemetry,
            &mut c.output,
        )
    })
}

/// The same of the entry with areas.
fn number_beside(change: impl Fn(&mut Call)) -> u32 {
    judged(change, SIDE_FRAME, |c| {
        step_areas_entry(
            &c.config,
            &c.fence,
            &mut c.state,
            &c.telemetry,
            &mut c.output,
            &c.areas,
        )
    })
}

fn judged(change: impl Fn(&mut Call), written: usize, entry: fn(&mut Call) -> u32) -> u32 {
    let mut call = sound();
    change(&mut call);
    let given = call.clone();
    let number = entry(&mut call);
    if number != 0 {
        assert_eq!((&call.state, &call.output), (&given.state, &given.output));
    } else {
        assert_eq!(call.output[written..], given.output[written..]);
    }
    number
}

#[test]
fn a_sound_call() {
    assert_eq!(number(|_| {}), 0);
}

#[test]
fn within_a_frame() {
    // Under 2 bytes, or fewer than 2 + length.
    assert_eq!(number(|c| c.telemetry.clear()), 1);
    assert_eq!(number(|c| c.telemetry.truncate(1)), 1);
    assert_eq!(number(|c| c.telemetry.truncate(105)), 1);
    // Length under 2, before the kind; its bytes are left over.
    assert_eq!(number(|c| c.telemetry[0] = 1), 3);
    assert_eq!(number(|c| c.telemetry[..3].copy_from_slice(&[0, 0, 9])), 3);
    // Not the kind due, also with bytes left over, and before 3 and 4.
    assert_eq!(number(|c| c.telemetry[2] = 4), 2);
    assert_eq!(number(|c| c.telemetry[3] = 1), 2);
    assert_eq!(number(|c| (c.telemetry[2], c.telemetry[0]) = (4, 50)), 2);
    assert_eq!(number(|c| (c.telemetry[2], c.telemetry[8]) = (4, 2)), 2);
    // A length that is not the kind's, or bytes left over, before 4.
    assert_eq!(number(|c| c.telemetry[0] = 103), 3);
    assert_eq!(number(|c| c.telemetry.push(0)), 3);
    assert_eq!(number(|c| (c.telemetry[8] = 2, c.telemetry.push(0)).1), 3);
    assert_eq!(number(|c| (c.telemetry[0] = 105, c.telemetry.push(0)).1), 3);
    // 1 before all else.
    assert_eq!(number(|c| (c.telemetry[2], c.telemetry[1]) = (4, 1)), 1);
}

#[test]
fn values() {
    // A flag of 2; an absent value that is not zero, inner flags too; an enum beyond its last.
    assert_eq!(number(|c| c.telemetry[8] = 2), 4);
    assert_eq!(number(|c| c.telemetry[9] = 1), 4);
    assert_eq!(number(|c| c.telemetry[43] = 1), 4);
    assert_eq!(number(|c| (c.telemetry[37], c.telemetry[42]) = (1, 3)), 4);
    assert_eq!(number(|c| (c.telemetry[37], c.telemetry[42]) = (1, 2)), 0);
    assert_eq!(number(|c| c.config[9] = 2), 4);
    // The state's own rules.
    assert_eq!(number(|c| c.state[132] = 3), 0);
    assert_eq!(number(|c| c.state[132] = 4), 4);
    assert_eq!(number(|c| c.state[184] = 2), 0);
    assert_eq!(number(|c| c.state[184] = 3), 4);
    assert_eq!(number(|c| c.state[174] = 255), 0);
    assert_eq!(number(|c| c.state[133] = 5), 4);
    assert_eq!(number(|c| c.state[134] = 19), 4);
    let stored = |c: &mut Call, at: usize, x: f32| {
        c.state[145] = 1;
        c.state[at..at + 4].copy_from_slice(&x.to_le_bytes());
    };
    for at in (150..174).step_by(4) {
        assert_eq!(number(|c| stored(c, at, 1.0)), 0);
        assert_eq!(number(|c| stored(c, at, f32::NAN)), 4);
        assert_eq!(number(|c| stored(c, at, f32::NEG_INFINITY)), 4);
    }
}

#[test]
fn fences() {
    // A body without its count; a count and a length that disagree; counts with the matching length.
    assert_eq!(number(|c| c.fence = vec![2, 0, 2, 0]), 3);
    assert_eq!(number(|c| c.fence[4] = 3), 3);
    for (count, wanted) in [(0, 10), (2, 10), (17, 11), (255, 11)] {
        let sent = |c: &mut Call| {
            let length = 11 + 8 * count as u16;
            c.fence.resize(2 + length as usize, 0);
            c.fence[..2].copy_from_slice(&length.to_le_bytes());
            c.fence[4] = count;
        };
        assert_eq!(number(sent), wanted);
    }
}

/// A five-pointed star of kind 8, of this size.
fn star(c: &mut Call, size: f32) {
    let corners = [(3, 0), (-2, 2), (1, -3), (1, 3), (-2, -2)];
    c.fence = vec![51, 0, 8, 0, 5];
    c.fence.extend(5f32.to_le_bytes());
    c.fence.extend(120f32.to_le_bytes());
    for (n, e) in corners {
        c.fence.extend((n as f32 * size).to_le_bytes());
        c.fence.extend((e as f32 * size).to_le_bytes());
    }
}

#[test]
fn fences_of_kind_8() {
    assert_eq!(number(|c| c.fence[2] = 8), 0);
    assert_eq!(number(|c| c.fence = vec![2, 0, 8, 0]), 3);
    assert_eq!(number(|c| (c.fence[2], c.fence[4]) = (8, 3)), 3);
    // A star is taken as kind 2 and turned away as kind 8, before its area and its altitudes.
    assert_eq!(number(|c| (star(c, 100.0), c.fence[2] = 2).1), 0);
    assert_eq!(number(|c| star(c, 100.0)), 33);
    assert_eq!(number(|c| (star(c, 1.0), c.fence[2] = 2).1), 17);
    assert_eq!(number(|c| star(c, 1.0)), 33);
    assert_eq!(number(|c| (star(c, 100.0), c.fence[8] = 0x7F).1), 33);
    // After 12 and 14.
    assert_eq!(
        number(|c| (star(c, 100.0), c.fence[15] = 0x80, c.fence[16] = 0x7F).2),
        12
    );
    assert_eq!(
        number(|c| (star(c, 100.0), c.fence.copy_within(13..21, 21)).1),
        14
    );
}

#[test]
fn frames_of_areas() {
    assert_eq!(number_beside(|_| {}), 0);
    // No byte, and a count of 0, are no area.
    assert_eq!(number_beside(|c| c.areas.clear()), 0);
    assert_eq!(number_beside(|c| c.areas = vec![3, 0, 13, 0, 0]), 0);
    assert_eq!(number_beside(|c| c.areas.truncate(1)), 1);
    assert_eq!(number_beside(|c| c.areas[0] += 1), 1);
    assert_eq!(number_beside(|c| c.areas[..2].copy_from_slice(&[1, 0])), 3);
    assert_eq!(number_beside(|c| c.areas[2] = 7), 2);
    assert_eq!(number_beside(|c| c.areas.push(0)), 3);
    // Counts that don't fit the length, before any body is judged: number 0 is 31.
    assert_eq!(number_beside(|c| c.areas = vec![2, 0, 13, 0]), 3);
    assert_eq!(number_beside(|c| c.areas = vec![4, 0, 13, 0, 0, 0]), 3);
    for count in [0, 1, 3, 255] {
        assert_eq!(number_beside(|c| (c.areas[4], c.areas[5]) = (count, 0)), 3);
    }
    assert_eq!(number_beside(|c| (c.areas[6], c.areas[5]) = (5, 0)), 3);
    assert_eq!(number_beside(|c| c.areas[5] = 0), 31);
}

#[test]
fn areas_one_by_one() {
    let answer = |all: &[(u8, Vec<(f32, f32)>)]| number_beside(|c| c.areas = areas(all));
    let (far, inside) = (yard(100.0), yard(-1.0));
    let star = vec![
        (300.0, 0.0),
        (-200.0, 200.0),
        (100.0, -300.0),
        (100.0, 300.0),
        (-200.0, -200.0),
    ];
    let small = vec![(100.0, 0.0), (100.0, 9.0), (109.0, 0.0)];
    // Home on a side is outside.
    assert_eq!(answer(&[(1, yard(0.0))]), 0);
    assert_eq!(answer(&[(1, inside.clone())]), 32);
    assert_eq!(answer(&[(1, star.clone())]), 33);
    assert_eq!(answer(&[(0, star.clone())]), 33);
    assert_eq!(answer(&[(0, small)]), 17);
    assert_eq!(answer(&[(0, inside.clone())]), 31);
    assert_eq!(answer(&[(1, vec![]), (0, far.clone())]), 10);
    assert_eq!(answer(&[(1, vec![(0.0, 0.0); 17])]), 11);
    // A number not above the one before; the faults of earlier bodies first.
    assert_eq!(answer(&[(2, far.clone()), (2, far.clone())]), 31);
    assert_eq!(answer(&[(2, far.clone()), (1, inside.clone())]), 31);
    assert_eq!(answer(&[(2, inside.clone()), (1, star.clone())]), 32);
    // A ninth, in its turn.
    let mut nine: Vec<_> = (1..10).map(|number| (number, far.clone())).collect();
    assert_eq!(answer(&nine[..8]), 0);
    assert_eq!(answer(&nine), 30);
    nine[8].1 = inside;
    assert_eq!(answer(&nine), 30);
    nine[8].0 = 8;
    assert_eq!(answer(&nine), 31);
    nine[8].1 = star;
    assert_eq!(answer(&nine), 33);
}

/// A change that makes a fault, and the number that it earns.
type Fault<'a> = (&'a dyn Fn(&mut Call), u32);

/// Of any two faults the one that stands first here is answered.
fn in_this_order(faults: &[Fault], number: impl Fn(&dyn Fn(&mut Call)) -> u32) {
    for (k, (first, wanted)) in faults.iter().enumerate() {
        for (later, _) in &faults[k..] {
            let both = |c: &mut Call| {
                later(c);
                first(c);
            };
            assert_eq!(number(&both), *wanted, "fault {k} comes first");
        }
    }
}

#[test]
fn across_frames() {
    let before: [Fault; 4] = [
        (&|c| c.config[9] = 2, 4),
        (&|c| c.fence[2] = 9, 2),
        (&|c| c.fence[8] = 0x7F, 18),
        (&|c| c.config[4] = 0, 25),
    ];
    let areas: [Fault; 3] = [
        (&|c| c.areas[2] = 7, 2),
        (&|c| c.areas[10] = 0x7F, 12),
        (&|c| c.areas[39] = 3, 31),
    ];
    let after: [Fault; 3] = [
        (&|c| c.state[0] = 0, 3),
        (&|c| c.telemetry[1] = 9, 1),
        (&|c| c.output.truncate(94), 5),
    ];
    in_this_order(&[&before[..], &after].concat(), |change| number(change));
    in_this_order(&[&before[..], &areas, &after].concat(), |change| {
        number_beside(change)
    });
}

#[test]
fn lengths_of_state_and_output() {
    assert_eq!(number(|c| c.state.push(0)), 3);
    assert_eq!(number(|c| c.output.truncate(95)), 0);
    assert_eq!(number(|c| c.output.truncate(94)), 5);
    for (len, wanted) in [(0, 5), (185, 5), (186, 0), (190, 0)] {
        let mut state = vec![0xEE; len];
        assert_eq!(fresh_entry(&mut state), wanted);
        let from = if wanted == 0 { STATE_FRAME } else { 0 };
        assert!(state[from..].iter().all(|&byte| byte == 0xEE));
    }
}

#[test]
fn written_nans() {
    // k_wind is looked at by no rule, and makes the energies NaN.
    let mut call = sound();
    let at = 10 + 4 * (54 - 3);
    call.config[at..at + 4].copy_from_slice(&0xFFC0_1234u32.to_le_bytes());
    let number = step_entry(
        &call.config,
        &call.fence,
        &mut call.state,
        &call.telemetry,
        &mut call.output,
    );
    assert_eq!(number, 0);
    assert_eq!(call.output[66..70], [0, 0, 0xC0, 0x7F]);
}
