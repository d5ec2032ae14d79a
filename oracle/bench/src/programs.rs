//! Whole programs on one stream.

use std::fs::File;
use std::process::{Command, Stdio};

use crate::{clock, ratio, summary, tell};

const ROUNDS: usize = 21;

/// The milliseconds of the processor's time that a program uses.
fn run(program: &str, stream: &str) -> f64 {
    let before = clock::children_ms();
    let status = Command::new(program)
        .stdin(File::open(stream).expect("the stream"))
        .stdout(Stdio::null())
        .status();
    assert!(
        status.expect("the program runs").success(),
        "{program} failed"
    );
    clock::children_ms() - before
}

fn answer(program: &str, stream: &str) -> Vec<u8> {
    let output = Command::new(program)
        .stdin(File::open(stream).expect("the stream"))
        .output();
    output.expect("the program runs").stdout
}

pub fn compare(port: &str, rust: &str, stream: &str) {
    let (ours, theirs) = (answer(rust, stream), answer(port, stream));
    assert!(ours == theirs, "the two programs write different answers");
    let (mut first, mut second) = (Vec::new(), Vec::new());
    for _ in 0..ROUNDS {
        first.push(run(port, stream));
        second.push(run(rust, stream));
    }
    let (port, rust) = (summary(first), summary(second));
    let frames = ours.len() / 95;
    println!("decide, {frames} telemetry frames: ms; median and least of {ROUNDS} rounds");
    tell("decide", port, 1);
    tell("the Rust program", rust, 1);
    tell("decide / the Rust program", ratio(port, rust), 3);
}
