//! Writes the fixed list of streams: inputs of `decide`, and what the Rust program of the same job wrote for them.
//! `kept_streams FOLDER RUST` writes FOLDER/rows and FOLDER/answers, always the same ones; RUST is the program oracle/decide.
//! docs/LISTS.md has the form of a row.

mod pieces;

use std::collections::BTreeMap;
use std::io::{Read, Write};
use std::process::{Command, Stdio};

use flights::{
    Both, Pilot, Setup, area_body, areas_frame, break_areas, break_config, break_fence, damage,
    once_round, refuse_areas, star,
};
use frames::{REFUSAL_FRAME, TELEMETRY, TELEMETRY_FRAME, put_frame};
use pieces::{Piece, Stream, absent, frame, longest};
use random::Random;
use words::{digest, line};

const SEED: u64 = 921_279_529;
const STREAM: u32 = 0x70;

/// The frames of a flight: configuration, fence, telemetry.
fn flight(random: &mut Random, setup: &Setup, steps: usize) -> Vec<Vec<u8>> {
    let mut all = vec![setup.config.to_vec(), setup.fence.clone()];
    let mut both = Both::new(&setup.config, &setup.fence).expect("an accepted configuration");
    let mut pilot = Pilot::new(random);
    for _ in 0..steps {
        let t = pilot.next(random, setup, &both.state());
        let mut frame = vec![0; TELEMETRY_FRAME];
        put_frame(TELEMETRY, &t, &mut frame);
        both.step(&frame);
        all.push(frame);
    }
    all
}

fn setup(random: &mut Random) -> Setup {
    let setup = Setup::random(random);
    let other = setup.fenced(once_round(setup.fence.clone()));
    if random.chance(2) {
        other.unwrap_or(setup)
    } else {
        setup
    }
}

fn short(random: &mut Random) -> Vec<Vec<u8>> {
    let setup = setup(random);
    let steps = random.one_of(&[1, 2, 3, 5]);
    flight(random, &setup, steps)
}

/// A frame of one area, near home or not.
fn areas(number: u8, north: f32) -> Vec<u8> {
    let ring = [(north, 0.0), (north, 30.0), (north + 40.0, 0.0)];
    areas_frame(&[area_body(number, &ring)])
}

/// No input, parts of the first frames, the defaults.
fn beginnings(all: &mut Vec<Stream>) {
    let defaults = Setup::defaults();
    let frames = [defaults.config.to_vec(), defaults.fence, absent()];
    let bytes = frames.concat();
    let ends = [0, 1, 2, 4, 245, 246, 247, 290, 291, 292, 396, 397];
    for end in ends.into_iter().filter(|&end| end <= bytes.len()) {
        all.push(vec![frame(&bytes[..end])]);
    }
}

/// Sound flights, with areas and without.
fn sound(random: &mut Random, all: &mut Vec<Stream>) {
    for steps in [1, 4, 12, 40] {
        let setup = setup(random);
        let frames = flight(random, &setup, steps);
        all.push(frames.iter().map(|bytes| frame(bytes)).collect());
        let mut with_areas = Stream::new();
        for (k, bytes) in frames.iter().take(14).enumerate() {
            if k >= 2 && k % 3 != 1 {
                with_areas.push(frame(&areas(7, [90.0, 25.0, 900.0][k % 3])));
            }
            with_areas.push(frame(bytes));
        }
        all.push(with_areas);
    }
}

/// One frame damaged, refused, missing or cut, at any place.
fn damaged(random: &mut Random, all: &mut Vec<Stream>) {
    for case in 0..64 {
        let mut frames = short(random);
        let at = case % frames.len();
        match case % 8 {
            0 | 1 => damage(random, &mut frames[at]),
            2 => frames[1] = break_fence(random),
            3 => {
                let mut config = frames[0].clone().try_into().expect("a configuration");
                break_config(random, &mut config);
                frames[0] = config.to_vec();
                if random.chance(2) {
                    frames[1] = break_fence(random);
                }
            }
            4 => frames[1] = once_round(star(random)),
            5 => frames.insert(2, refuse_areas(random)),
            6 => {
                let body = area_body(3, &[(90.0, 0.0), (90.0, 30.0), (120.0, 0.0)]);
                frames.insert(2.min(at + 1), break_areas(random, &[body]));
            }
            _ => {
                let bytes = frames.concat();
                frames = vec![bytes[..random.below(bytes.len())].to_vec()];
            }
        }
        // The largest are no better than others.
        if frames.iter().all(|bytes| bytes.len() < 1200) || case % 8 == 7 {
            all.push(frames.iter().map(|bytes| frame(bytes)).collect());
        }
    }
}

/// A flag byte out of range in each frame that has one.
fn flags(random: &mut Random, all: &mut Vec<Stream>) {
    for (at, byte) in [(0, 9), (2, 8), (3, 105)] {
        let mut frames = flight(random, &Setup::defaults(), 3);
        frames[at][byte] = 2;
        all.push(frames.iter().map(|bytes| frame(bytes)).collect());
    }
}

/// Areas before the configuration, before the fence, twice in a row, at the end.
fn areas_anywhere(random: &mut Random, all: &mut Vec<Stream>) {
    for at in 0..6 {
        let setup = Setup::defaults();
        let mut frames = flight(random, &setup, 3);
        frames.insert(at, areas(7, 60.0));
        if at == 3 {
            frames.insert(at, areas(8, 60.0));
        }
        all.push(frames.iter().map(|bytes| frame(bytes)).collect());
    }
}

/// Frames of 65,537 bytes, and thousands of frames.
fn long(random: &mut Random, all: &mut Vec<Stream>) {
    let defaults = Setup::defaults();
    let head = [frame(&defaults.config), frame(&defaults.fence)];
    for (before, kind) in [(0, 1), (1, 2), (1, 8), (2, 3), (2, 13)] {
        let mut stream: Stream = head[..before].to_vec();
        stream.extend(longest(kind, 65_533));
        all.push(stream.clone());
        stream.pop();
        stream.extend(longest(kind, 65_532).pop());
        all.push(stream);
    }
    for (steps, times) in [(20, 250), (1, 7000)] {
        let frames = flight(random, &defaults, steps);
        let mut stream = head.to_vec();
        stream.push(Piece {
            times,
            bytes: frames[2..].concat(),
        });
        stream.push(frame(&absent()[..105]));
        all.push(stream);
    }
}

fn answer(rust: &str, input: Vec<u8>) -> std::io::Result<Vec<u8>> {
    let mut child = Command::new(rust)
        .stdin(Stdio::piped())
        .stdout(Stdio::piped())
        .spawn()?;
    let mut to = child.stdin.take().expect("a pipe");
    // A program that has refused reads no more.
    let feeder = std::thread::spawn(move || {
        let _ = to.write_all(&input);
    });
    let mut answer = Vec::new();
    child
        .stdout
        .take()
        .expect("a pipe")
        .read_to_end(&mut answer)?;
    feeder.join().expect("the feeder ends");
    child.wait()?;
    Ok(answer)
}

/// What the answers end with: a refusal's number, or 0.
fn ending(answers: &[u8]) -> u32 {
    let at = answers.len().saturating_sub(REFUSAL_FRAME);
    match answers[at..] {
        [4, 0, 255, 0, low, high] => u16::from_le_bytes([low, high]) as u32,
        _ => 0,
    }
}

fn main() -> std::io::Result<()> {
    let words: Vec<String> = std::env::args().skip(1).collect();
    let [folder, rust] = words.as_slice() else {
        eprintln!("usage: kept_streams FOLDER RUST");
        std::process::exit(2);
    };
    let mut random = Random::new(SEED);
    let mut all = Vec::new();
    beginnings(&mut all);
    sound(&mut random, &mut all);
    damaged(&mut random, &mut all);
    flags(&mut random, &mut all);
    areas_anywhere(&mut random, &mut all);
    long(&mut random, &mut all);
    let (mut rows, mut answers) = (String::new(), String::new());
    let mut endings: BTreeMap<u32, usize> = BTreeMap::new();
    for stream in &all {
        let asked = pieces::words(stream);
        line(&mut rows, [STREAM, asked.len() as u32].iter().chain(&asked));
        let written = answer(rust, pieces::bytes(stream))?;
        let number = ending(&written);
        let [high, low] = digest(&written);
        line(
            &mut answers,
            [written.len() as u32, number, high, low].iter(),
        );
        *endings.entry(number).or_default() += 1;
    }
    for (number, count) in &endings {
        eprintln!("ended with {number}: {count}");
    }
    for number in [0, 1, 2, 3, 4, 30, 31, 32, 33] {
        assert!(
            endings.contains_key(&number),
            "no stream ends with {number}"
        );
    }
    eprintln!("rows: {}", all.len());
    std::fs::create_dir_all(folder)?;
    let folder = std::path::Path::new(folder);
    std::fs::write(folder.join("rows"), rows)?;
    std::fs::write(folder.join("answers"), answers)
}
