//! The port's steps beside keep-out areas, and its adds and removes, beside document 02's L3 in plain Rust (oracle/frames) on
//! the same bytes: the number, every buffer, and the bytes around them, after every call.
//!   areas [STEPS [SEED]]
//! First every order of up to four areas and the edges of adds and removes, then histories of these at random, then flights of
//! that many steps in which areas come and go, with declined calls among them. As long as no area has been held the Rust as
//! it is steps beside them. Exit status 1: something differs, or something was not passed through.

mod counts;
mod fly;
mod held;

use counts::Counts;
use fly::Driver;
use port::Sides;
use random::Random;

/// The refusals of areas one by one, and of their frame.
const OF_AREAS: [&str; 15] = [
    "1", "2", "3", "10", "11", "12", "13", "14", "15", "16", "17", "30", "31", "32", "33",
];

fn run(driver: &mut Driver, steps: u64) -> Result<(), String> {
    let orders = held::every_order(&mut driver.sides)?;
    held::edges(&mut driver.sides)?;
    println!("{orders} orders of up to four adds and removes, and their edges, as due");
    for _ in 0..steps / 500 {
        held::history(
            &mut driver.random,
            &mut driver.sides,
            &mut driver.counts,
            60,
        )?;
    }
    while driver.steps < steps {
        let left = (steps - driver.steps) as usize;
        let most = 100 + driver.random.below(400);
        driver.fly(left.min(most))?;
    }
    Ok(())
}

fn missing(counts: &Counts) -> Vec<String> {
    let mut missing = counts.missing("step, areas", &OF_AREAS);
    for what in ["add", "remove"] {
        missing.extend(counts.missing(what, &OF_AREAS));
        missing.extend(counts.missing(what, &["0", "5"]));
    }
    missing.extend(counts.missing(
        "step, the rest",
        &["1", "2", "3", "4", "5", "18", "20", "27"],
    ));
    missing.extend(counts.missing("side", &["the fence's", "254", "255"]));
    let held = ["0", "1", "2", "3", "4", "5", "6", "7", "8"];
    missing.extend(counts.missing("areas held", &held));
    let met = [
        "a step down beside areas",
        "an area as near as the fence",
        "two areas as near",
        "-0",
        "approach of an area",
        "an area entered",
        "an area entered outside the fence",
        "in an area, inside the fence",
        "exactly fence_approach_m",
        "exactly fence_breach_clear_m",
    ];
    missing.extend(counts.missing("met", &met));
    let two = [
        "configuration or fence, areas",
        "areas, state",
        "areas, telemetry",
        "areas, output",
    ];
    missing.extend(counts.missing("two faults", &two));
    missing
}

fn main() {
    let mut arguments = std::env::args().skip(1).map(|word| word.parse::<u64>());
    let (steps, seed) = (
        arguments.next().unwrap_or(Ok(1_000_000)),
        arguments.next().unwrap_or(Ok(3)),
    );
    let (Ok(steps), Ok(seed)) = (steps, seed) else {
        eprintln!("usage: areas [STEPS [SEED]]");
        std::process::exit(2);
    };
    println!("seed {seed}, {steps} steps");
    let mut driver = Driver {
        random: Random::new(seed),
        sides: Sides::default(),
        counts: Counts::default(),
        steps: 0,
        declined: 0,
        as_the_rust: 0,
    };
    if let Err(told) = run(&mut driver, steps) {
        println!(
            "after {} steps of seed {seed}:\n{told}differs",
            driver.steps
        );
        std::process::exit(1);
    }
    driver.counts.report();
    println!(
        "{} steps, {} of them also the Rust's own, {} declined calls: nothing differs",
        driver.steps, driver.as_the_rust, driver.declined
    );
    let missing = missing(&driver.counts);
    if !missing.is_empty() {
        println!("not passed through: {}", missing.join(", "));
        std::process::exit(1);
    }
}
