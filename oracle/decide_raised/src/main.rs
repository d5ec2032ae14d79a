//! Document 01's program `decide` with document 02's kind 11, in plain Rust, by the entries of oracle/frames: reads a kind 1
//! or 11, a kind 2 or 8, then kind 3 frames, each with at most one kind 13 before it, and writes one kind 4 frame a step; at
//! the first refusal one kind 255 frame. It reads all of its input first. (oracle/decide is the one that is timed, and takes
//! kind 1 alone.)

use std::io::{Read, Write};

use failsafe_open::Config;
use frames::{
    AREAS, CONFIG, CONFIG_RAISED, DECISION, DECISION_FRAME, Form, RAISED_STATE_FRAME,
    REFUSAL_FRAME, SIDE_FRAME, STATE_FRAME, TRUNCATED, check_entry, fresh_entry,
    fresh_raised_entry, put_refusal, read_areas, read_frame, step_by, step_raised,
};

fn kind(frame: &[u8]) -> Option<u16> {
    let bytes = frame.get(2..4)?;
    Some(u16::from_le_bytes([bytes[0], bytes[1]]))
}

/// The first frame, taken off; None at the end.
fn next<'a>(input: &mut &'a [u8]) -> Result<Option<&'a [u8]>, u32> {
    if input.is_empty() {
        return Ok(None);
    }
    let head = input.get(..2).ok_or(TRUNCATED)?;
    let length = 2 + u16::from_le_bytes([head[0], head[1]]) as usize;
    let (frame, rest) = input.split_at_checked(length).ok_or(TRUNCATED)?;
    *input = rest;
    Ok(Some(frame))
}

/// Kind 6 as kind 4: the byte after the distance is left out.
fn without_side(shown: &[u8; SIDE_FRAME], output: &mut Vec<u8>) {
    output.extend((DECISION_FRAME as u16 - 2).to_le_bytes());
    output.extend(DECISION.to_le_bytes());
    output.extend(&shown[4..SIDE_FRAME - 2]);
    output.push(shown[SIDE_FRAME - 1]);
}

fn done(number: u32) -> Result<(), u32> {
    if number == 0 { Ok(()) } else { Err(number) }
}

fn run(mut input: &[u8], output: &mut Vec<u8>) -> Result<(), u32> {
    let Some(config) = next(&mut input)? else {
        return Ok(());
    };
    let keeping = kind(config) == Some(CONFIG_RAISED);
    let (due, room) = if keeping {
        (CONFIG_RAISED, RAISED_STATE_FRAME)
    } else {
        (CONFIG, STATE_FRAME)
    };
    read_frame::<Config>(due, config)?;
    let Some(fence) = next(&mut input)? else {
        return Ok(());
    };
    done(check_entry(config, fence))?;
    let mut state = vec![0; room];
    if keeping {
        fresh_raised_entry(&mut state);
    } else {
        fresh_entry(&mut state);
    }
    let (mut areas, mut areas_last): (&[u8], bool) = (&[], false);
    while let Some(frame) = next(&mut input)? {
        if !areas_last && kind(frame) == Some(AREAS) {
            read_areas(frame)?;
            (areas, areas_last) = (frame, true);
            continue;
        }
        let mut shown = [0; SIDE_FRAME];
        let form = Form::Areas(areas);
        done(step_by(
            step_raised,
            form,
            config,
            fence,
            &mut state,
            frame,
            &mut shown,
        ))?;
        without_side(&shown, output);
        areas_last = false;
    }
    Ok(())
}

fn main() -> std::io::Result<()> {
    let (mut input, mut output) = (Vec::new(), Vec::new());
    std::io::stdin().read_to_end(&mut input)?;
    if let Err(number) = run(&input, &mut output) {
        let mut refusal = [0; REFUSAL_FRAME];
        put_refusal(number, &mut refusal);
        output.extend(refusal);
    }
    std::io::stdout().write_all(&output)
}
