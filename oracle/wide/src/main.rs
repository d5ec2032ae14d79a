//! The port's steps on the 64-bit clock (kinds 9 and 10) beside the Rust's own source with its instants widened (oracle/run.sh makes
//! it), on the same bytes: the number, every buffer, and the bytes around them, after every call.
//!   wide [STEPS [SEED]]
//!   wide --reference [STEPS [SEED]]   only flights on both clocks, the 64-bit one by the reference alone: the reference beside the
//!                                     port's 32-bit clock
//! First a fresh state of kind 10 of every length, each held instant carried over at the limits of its age, and single steps where the
//! two clocks part, all beside what document 02 says; then flights of that many steps with declined calls and states of all kinds among them, states carried over, and flights on both clocks beside
//! each other. Exit status 1: something differs, or something was not passed through.

mod both;
mod carry;
mod cases;
mod clock;
#[path = "../../areas/src/counts.rs"]
mod counts;
mod decline;
mod fly;

use counts::Counts;
use fly::Driver;
use frames::{NO_ROOM, WIDE_STATE_FRAME};
use port::Sides;
use random::Random;

/// Every length; bytes after the state stay, and all of them where there is too little room.
fn fresh(sides: &mut Sides) -> Result<(), String> {
    for len in 0..=400 {
        let mut state = vec![0xC3; len];
        let number = sides.fresh_wide(&mut state)?;
        let room = len >= WIDE_STATE_FRAME;
        let after = if room { WIDE_STATE_FRAME } else { 0 };
        assert_eq!(number, if room { 0 } else { NO_ROOM });
        assert!(state[after..].iter().all(|&byte| byte == 0xC3));
        if room {
            assert_eq!(state[..4], [48, 1, 10, 0], "the head");
            assert!(state[4..after].iter().all(|&byte| byte == 0), "all zero");
        }
    }
    Ok(())
}

fn run(driver: &mut Driver, steps: u64) -> Result<(), String> {
    if !driver.reference {
        fresh(&mut driver.sides)?;
        driver.edges()?;
        cases::run(&mut driver.sides)?;
        println!(
            "a fresh state of kind 10 of every length to 400, each held instant carried over at its limits, and the steps where the clocks part, as due"
        );
    }
    while driver.steps < steps {
        let left = (steps - driver.steps) as usize;
        let most = 100 + driver.random.below(400);
        if driver.reference || driver.random.chance(4) {
            driver.fly_both(left.min(most))?;
            continue;
        }
        driver.fly(left.min(most))?;
        if driver.random.chance(3) {
            driver.carry(60)?;
        }
    }
    Ok(())
}

fn compare(reference: bool, steps: u64, seed: u64) -> Result<(), String> {
    println!("seed {seed}, {steps} steps");
    let mut driver = Driver {
        random: Random::new(seed),
        sides: Sides::default(),
        counts: Counts::default(),
        steps: 0,
        declined: 0,
        several: 0,
        odd_states: 0,
        carried: 0,
        beside: 0,
        reference,
    };
    run(&mut driver, steps).map_err(|told| {
        format!(
            "after {} steps of seed {seed}:\n{told}differs",
            driver.steps
        )
    })?;
    driver.counts.report();
    println!(
        "{} steps, {} of them on both clocks; {} declined calls ({} with several faults), {} steps from states that no flight left, {} states carried over or not: nothing differs",
        driver.steps,
        driver.beside,
        driver.declined,
        driver.several,
        driver.odd_states,
        driver.carried
    );
    let mut missing = driver.missing_both();
    if !reference {
        missing.extend(driver.missing());
        missing.extend(driver.missing_carried());
    }
    if steps == 0 {
        missing.push("any step".into());
    }
    if missing.is_empty() {
        Ok(())
    } else {
        Err(format!("not passed through: {}", missing.join(", ")))
    }
}

fn main() {
    let mut words: Vec<String> = std::env::args().skip(1).collect();
    let reference = words.first().is_some_and(|word| word == "--reference");
    if reference {
        words.remove(0);
    }
    let number = |k: usize, or: u64| words.get(k).map_or(Some(or), |word| word.parse().ok());
    let done = match (number(0, 100_000), number(1, 7)) {
        (Some(steps), Some(seed)) if words.len() < 3 => compare(reference, steps, seed),
        _ => {
            eprintln!("usage: wide [--reference] [STEPS [SEED]]");
            std::process::exit(2)
        }
    };
    if let Err(told) = done {
        println!("{told}");
        std::process::exit(1);
    }
}
