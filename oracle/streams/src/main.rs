//! Two programs of the same job as `decide`, on the same streams:
//!   streams PORT RUST [CASES [SEED]]   compares what they write
//!   streams --write FILE FRAMES        writes one long good stream
//! Exit status 1: something differs, or something was not passed through.

mod programs;

use std::collections::BTreeMap;

use flights::{
    Both, Pilot, Setup, area_body, areas_frame, break_areas, break_config, break_fence, damage,
    once_round, refuse_areas, ring_near, star,
};
use frames::{TELEMETRY, TELEMETRY_FRAME, put_frame};
use programs::Program;
use random::Random;

/// What document 01 says `decide` writes for the defaults and one all-absent telemetry at 0.
fn listing() -> Vec<u8> {
    let mut bytes = vec![0x5D, 0, 4, 0, 4, 9, 3];
    bytes.extend([0; 9]);
    bytes.extend([1, 3, 3, 1, 4, 3, 1, 5, 3]);
    bytes.extend([0; 39]);
    bytes.extend([0, 0]);
    bytes.extend([0x55, 0x55, 0x55, 0x40]);
    bytes.extend([0, 0, 0, 0x80]);
    bytes.extend([0, 0, 0, 0x41]);
    bytes.extend([0; 17]);
    bytes
}

fn absent() -> Vec<u8> {
    let mut frame = vec![0; TELEMETRY_FRAME];
    frame[..4].copy_from_slice(&[104, 0, 3, 0]);
    frame
}

/// The frames of a flight: configuration, fence, telemetry.
fn flight(random: &mut Random, setup: &Setup, steps: usize) -> Vec<Vec<u8>> {
    let mut all = vec![setup.config.to_vec(), setup.fence.clone()];
    let mut both = Both::new(&setup.config, &setup.fence).expect("an accepted configuration");
    let mut pilot = Pilot::new(random);
    for _ in 0..steps {
        let t = pilot.next(random, setup, &both.state());
        let mut frame = vec![0; TELEMETRY_FRAME];
        put_frame(TELEMETRY, &t, &mut frame);
        both.step(&frame);
        all.push(frame);
    }
    all
}

/// Areas near a telemetry frame's place, each of them accepted.
fn areas_near(random: &mut Random, telemetry: &[u8]) -> Vec<u8> {
    let real = |at: usize| f32::from_le_bytes(std::array::from_fn(|k| telemetry[at + k]));
    let mut bodies = Vec::new();
    for number in 1..=random.below(9) as u8 {
        let far = random.one_of(&[0.0, 5.0, 10.0, -1.0]);
        let body = area_body(20 * number, &ring_near(random, (real(13), real(17)), far));
        if frames::read_areas(&areas_frame(&[body.clone()])).is_ok() {
            bodies.push(body);
        }
    }
    areas_frame(&bodies)
}

/// Puts areas before some of the telemetry frames of a flight.
fn with_areas(random: &mut Random, all: Vec<Vec<u8>>) -> Vec<Vec<u8>> {
    let mut more = Vec::new();
    for (k, frame) in all.into_iter().enumerate() {
        if k >= 2 && random.chance(6) {
            more.push(areas_near(random, &frame));
        }
        more.push(frame);
    }
    more
}

/// Areas that are refused, where areas are due.
fn areas_refused(random: &mut Random, all: &mut Vec<Vec<u8>>) {
    let ring = ring_near(random, (90.0, 0.0), 0.0);
    let frame = match random.below(3) {
        0 => break_areas(random, &[area_body(3, &ring)]),
        _ => refuse_areas(random),
    };
    let at = 2 + random.below(all.len() - 1);
    // In the place of those that are there, if any.
    all.retain(|frame| frame.get(2..4) != Some(&frames::AREAS.to_le_bytes()));
    all.insert(at.min(all.len()), frame);
}

/// One frame of areas at any place: before the configuration or the fence, a second in a row, at the end; sound or not.
fn areas_anywhere(random: &mut Random, all: &mut Vec<Vec<u8>>) {
    let ring = ring_near(random, (90.0, 0.0), 0.0);
    let frame = match random.below(3) {
        0 => areas_near(random, &absent()),
        1 => areas_frame(&[]),
        _ => break_areas(random, &[area_body(3, &ring)]),
    };
    let anywhere = random.below(all.len() + 1);
    let at = random.one_of(&[0, 1, 2.min(all.len()), all.len(), anywhere, anywhere]);
    all.insert(at, frame);
}

/// A frame of 65,537 bytes.
fn longest(kind: u16) -> Vec<u8> {
    let mut frame = vec![0; 65_537];
    frame[..2].copy_from_slice(&[0xFF, 0xFF]);
    frame[2..4].copy_from_slice(&kind.to_le_bytes());
    frame
}

/// A stream, good or not.
fn stream(random: &mut Random, case: usize) -> Vec<u8> {
    let mut setup = Setup::random(random);
    if random.chance(2) {
        let other = setup.fenced(once_round(setup.fence.clone()));
        setup = other.unwrap_or(setup);
    }
    let steps = random.one_of(&[0, 1, 3, 40, 800]);
    let mut all = flight(random, &setup, steps);
    if random.chance(2) {
        all = with_areas(random, all);
    }
    let at = random.below(all.len());
    match case % 10 {
        0 | 1 => {}
        2 => damage(random, &mut all[at]),
        3 => all.truncate(random.below(3)),
        4 => {
            let mut config = setup.config;
            break_config(random, &mut config);
            all[0] = config.to_vec();
            if random.chance(2) {
                all[1] = break_fence(random);
            }
        }
        5 if random.chance(3) => all[1] = once_round(star(random)),
        5 => all[1] = break_fence(random),
        6 => {
            let kind = random.one_of(&[1, 2, 3, 4, 5, 8, 13, 255]);
            all.insert(at, longest(kind));
        }
        8 => areas_refused(random, &mut all),
        9 => areas_anywhere(random, &mut all),
        _ => {
            let bytes = all.concat();
            return bytes[..random.below(bytes.len() + 1)].to_vec();
        }
    }
    all.concat()
}

/// What a stream of answers ends with: a refusal's number, or 0.
fn ending(answers: &[u8]) -> u16 {
    let at = answers.len() - answers.len() % 95;
    match &answers[at..] {
        [4, 0, 255, 0, low, high] => u16::from_le_bytes([*low, *high]),
        _ => 0,
    }
}

/// Frames enough to fill the output block of 65,536 bytes several times.
const LONG: usize = 5000;

/// Two answers to one input are alike.
fn alike(what: &str, rust: &[u8], port: &[u8]) -> Result<(), String> {
    if rust == port {
        return Ok(());
    }
    let at = rust.iter().zip(port).position(|(a, b)| a != b);
    let at = at.unwrap_or(rust.len().min(port.len()));
    Err(format!(
        "{what}: the Rust wrote {} bytes, the port {}; they differ at {at}",
        rust.len(),
        port.len()
    ))
}

/// A long flight: as a file that is fed whole, in more than ten thousand reads, and to an output that is full.
fn long(port: &Program, rust: &Program) -> Result<String, String> {
    let mut random = Random::new(11);
    let all = flight(&mut random, &Setup::defaults(), LONG);
    let all = with_areas(&mut random, all).concat();
    let file = std::env::temp_dir().join(format!("decide-long-{}", std::process::id()));
    std::fs::write(&file, &all).map_err(|error| error.to_string())?;
    let answers = rust
        .answer_file(&file)
        .and_then(|ours| Ok((ours, port.answer_file(&file)?)));
    std::fs::remove_file(&file).map_err(|error| error.to_string())?;
    let ((ours, _), (theirs, writes)) = answers?;
    if ours.len() != 95 * LONG {
        return Err(format!("{}: not an answer a step", rust.name()));
    }
    alike("a file fed whole", &ours, &theirs)?;
    if writes * 100 > LONG {
        return Err(format!("a file fed whole: {writes} writes"));
    }
    let mut pieces = Vec::new();
    let mut at = 0;
    while at < all.len() && pieces.len() < 20_000 {
        let end = all.len().min(at + 1 + random.below(15));
        pieces.push(all[at..end].to_vec());
        at = end;
    }
    let count = pieces.len();
    alike(
        "in many reads",
        &rust.answer_pieces(pieces.clone())?,
        &port.answer_pieces(pieces)?,
    )?;
    for program in [rust, port] {
        program.ends_where_full(&all[..all.len().min(4096)])?;
    }
    Ok(format!(
        "{LONG} steps from a file in {writes} writes; {count} pieces, each read by itself; ends where its output is full"
    ))
}

fn compare(port: &Program, rust: &Program, cases: usize, seed: u64) -> Result<String, String> {
    let mut random = Random::new(seed);
    let defaults = Setup::defaults();
    let input = [defaults.config.to_vec(), defaults.fence, absent()].concat();
    for program in [rust, port] {
        if program.answer(&mut random, &input)? != listing() {
            return Err(format!("{}: not document 01's 95 bytes", program.name()));
        }
        program.answers_before_more(&input, &listing())?;
    }
    println!("{}", long(port, rust)?);
    for program in [rust, port] {
        program.ends_unread(&input, &absent())?;
    }
    let mut endings: BTreeMap<u16, usize> = BTreeMap::new();
    let mut written = 0;
    for case in 0..cases {
        let input = stream(&mut random, case);
        let (ours, theirs) = (
            rust.answer(&mut random, &input)?,
            port.answer(&mut random, &input)?,
        );
        alike(&format!("case {case} of seed {seed}"), &ours, &theirs).map_err(|told| {
            let kept = std::env::temp_dir().join("decide-differs");
            let kept = std::fs::write(&kept, &input).map(|()| kept.display().to_string());
            format!(
                "{told}; input kept in {}",
                kept.unwrap_or_else(|error| error.to_string())
            )
        })?;
        *endings.entry(ending(&ours)).or_default() += 1;
        written += ours.len();
    }
    let told: Vec<String> = endings
        .iter()
        .map(|(number, count)| format!("{number}: {count}"))
        .collect();
    println!("ended with: {}", told.join(", "));
    for number in [0, 1, 2, 3, 4, 11, 16, 30, 31, 32, 33] {
        if !endings.contains_key(&number) {
            return Err(format!("no stream ended with {number}"));
        }
    }
    Ok(format!(
        "document 01's 95 bytes; {cases} streams, {written} bytes written alike"
    ))
}

fn main() {
    let words: Vec<String> = std::env::args().skip(1).collect();
    let words: Vec<&str> = words.iter().map(String::as_str).collect();
    let done = match words.as_slice() {
        ["--write", file, frames] => {
            let frames = frames.parse().expect("a count of frames");
            let all = flight(&mut Random::new(5), &Setup::defaults(), frames);
            std::fs::write(file, all.concat())
                .map(|()| String::new())
                .map_err(|e| e.to_string())
        }
        [port, rust, rest @ ..] => {
            let number =
                |k: usize, or: u64| rest.get(k).map_or(or, |x| x.parse().expect("a number"));
            let (cases, seed) = (number(0, 300), number(1, 1));
            println!("seed {seed}, {cases} streams");
            compare(&Program::at(port), &Program::at(rust), cases as usize, seed)
        }
        _ => Err("usage: streams PORT RUST [CASES [SEED]] | streams --write FILE FRAMES".into()),
    };
    match done {
        Ok(told) => println!("{told}"),
        Err(told) => {
            println!("{told}");
            std::process::exit(1);
        }
    }
}
