//! Faults, one in each thing that a call is refused for, and every two of them at once: the earlier one's number is answered.

use flights::{
    area_body, areas_frame, break_config, break_fence, damage, once_round, refuse_areas, star,
};
use frames::{CONFIG_FRAME, State, read_areas, read_fence, read_frame};
use random::Random;

use crate::draws::sound;
use crate::rows::{Call, Entry, Rows};

/// What a call is refused for, in the order of document 01.
#[derive(Clone, Copy, PartialEq)]
pub enum Stage {
    ConfigFrame,
    FenceFrame,
    FenceRules,
    ConfigRules,
    Areas,
    State,
    Telemetry,
    Output,
}

pub const STAGES: [Stage; 8] = [
    Stage::ConfigFrame,
    Stage::FenceFrame,
    Stage::FenceRules,
    Stage::ConfigRules,
    Stage::Areas,
    Stage::State,
    Stage::Telemetry,
    Stage::Output,
];

/// Damages a frame until it is refused.
fn damaged(random: &mut Random, sound: &[u8], refused: impl Fn(&[u8]) -> bool) -> Vec<u8> {
    loop {
        let mut frame = sound.to_vec();
        damage(random, &mut frame);
        if refused(&frame) {
            return frame;
        }
    }
}

/// A fence frame that is sound, and whose fence is not.
fn unfit_fence(random: &mut Random) -> Vec<u8> {
    loop {
        let frame = match random.below(3) {
            0 => once_round(star(random)),
            _ => break_fence(random),
        };
        // The largest are no better than others.
        let refused = read_fence(&frame).is_ok_and(|sent| frames::fence_open(&sent).is_err());
        if refused && frame.len() < 200 {
            return frame;
        }
    }
}

fn unfit_config(random: &mut Random, call: &Call) -> Vec<u8> {
    loop {
        let mut config: [u8; CONFIG_FRAME] = call.config.clone().try_into().expect("a Config");
        break_config(random, &mut config);
        let mut other = Call {
            config: config.to_vec(),
            ..call.clone()
        };
        if other.answer(Entry::Step) != 0 {
            return config.to_vec();
        }
    }
}

fn unfit_areas(random: &mut Random) -> Vec<u8> {
    let sound = areas_frame(&[area_body(9, &[(90.0, 0.0), (90.0, 30.0), (120.0, 0.0)])]);
    match random.below(3) {
        0 => refuse_areas(random),
        _ => damaged(random, &sound, |frame| read_areas(frame).is_err()),
    }
}

/// Puts a fault into a sound call.
pub fn spoil(random: &mut Random, call: &mut Call, stage: Stage) {
    use failsafe_open::{Config, Telemetry};
    match stage {
        Stage::ConfigFrame => {
            let refused = |frame: &[u8]| read_frame::<Config>(frames::CONFIG, frame).is_err();
            call.config = damaged(random, &call.config, refused);
        }
        Stage::FenceFrame => {
            call.fence = damaged(random, &call.fence, |frame| read_fence(frame).is_err())
        }
        Stage::FenceRules => call.fence = unfit_fence(random),
        Stage::ConfigRules => call.config = unfit_config(random, call),
        Stage::Areas => call.areas = unfit_areas(random),
        Stage::State => {
            let refused = |frame: &[u8]| State::read_frame(frame).is_err();
            call.state = damaged(random, &call.state, refused);
        }
        Stage::Telemetry => {
            let refused = |frame: &[u8]| read_frame::<Telemetry>(frames::TELEMETRY, frame).is_err();
            call.telemetry = damaged(random, &call.telemetry, refused);
        }
        Stage::Output => call.output.truncate(random.below(95)),
    }
}

/// Two faults: the later one first, as it is drawn for a sound call.
fn both(random: &mut Random, sound: &Call, first: Stage, second: Stage) -> Call {
    let mut call = sound.clone();
    spoil(random, &mut call, second);
    let mut one = sound.clone();
    spoil(random, &mut one, first);
    match first {
        Stage::ConfigFrame | Stage::ConfigRules => call.config = one.config,
        Stage::FenceFrame | Stage::FenceRules => call.fence = one.fence,
        Stage::Areas => call.areas = one.areas,
        Stage::State => call.state = one.state,
        Stage::Telemetry => call.telemetry = one.telemetry,
        Stage::Output => call.output = one.output,
    }
    call
}

/// Every fault alone, every two, and all from one on; for a step, with and without areas.
pub fn orders(rows: &mut Rows, random: &mut Random) {
    let sound = sound(random);
    for (i, &first) in STAGES.iter().enumerate() {
        for entry in [Entry::Step, Entry::Side, Entry::Areas] {
            if first == Stage::Areas && entry != Entry::Areas {
                continue;
            }
            let mut call = sound.clone();
            spoil(random, &mut call, first);
            rows.call(entry, &mut call);
            for &second in &STAGES[i + 1..] {
                if second != Stage::Areas || entry == Entry::Areas {
                    rows.call(entry, &mut both(random, &sound, first, second));
                }
            }
        }
        let mut call = sound.clone();
        for &stage in STAGES[i..].iter().rev() {
            // A frame that is refused has no rules to break.
            let rules = matches!(stage, Stage::FenceRules | Stage::ConfigRules);
            if stage == first || !rules {
                spoil(random, &mut call, stage);
            }
        }
        rows.call(Entry::Areas, &mut call);
    }
    refusals(rows, random, &sound);
}

/// Every number of the fence rules and of the configuration rules, by a step and by a check.
fn refusals(rows: &mut Rows, random: &mut Random, sound: &Call) {
    for number in (10..19).chain([33]).chain(20..29) {
        let mut call = loop {
            let mut call = sound.clone();
            let stage = if (20..29).contains(&number) {
                Stage::ConfigRules
            } else {
                Stage::FenceRules
            };
            spoil(random, &mut call, stage);
            if number == 20 {
                call = sound.clone();
                call.fence = away(random);
            }
            if call.clone().answer(Entry::Step) == number {
                break call;
            }
        };
        rows.call(Entry::Check, &mut call);
        rows.call(Entry::Step, &mut call);
    }
    let mut flag = sound.clone();
    flag.config[9] = 2;
    rows.call(Entry::Check, &mut flag);
    for (config, fence) in heads(&sound.config).into_iter().zip(heads(&sound.fence)) {
        let mut call = sound.clone();
        call.fence = fence;
        rows.call(Entry::Check, &mut call);
        call.config = config;
        rows.call(Entry::Check, &mut call);
    }
}

/// A frame that is cut off, one of another kind, and one with a byte left over: 1, 2 and 3.
pub fn heads(frame: &[u8]) -> [Vec<u8>; 3] {
    let mut kind = frame.to_vec();
    kind[2] ^= 0x40;
    let cut = frame[..frame.len() - 1].to_vec();
    [cut, kind, [frame, &[0]].concat()]
}

/// A fence that home lies outside of.
fn away(random: &mut Random) -> Vec<u8> {
    flights::fence_frame(5.0, 120.0, &random::circle(random, 5, 100.0, (300.0, 0.0)))
}
