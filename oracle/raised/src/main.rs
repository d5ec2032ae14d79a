//! The port's steps under a configuration of kind 11 beside document 02's L11 in plain Rust over the Rust's own timers
//! (oracle/frames), on the same bytes: the number, every buffer, and the bytes around them, after every call.
//!   raised [STEPS [SEED]]
//!   raised --write FOLDER STREAMS [SEED]   streams for `decide` with kind 11, a file each
//! First a fresh state of kind 12 of every length, and the smallest input where set and clear have both held; then flights
//! of that many steps whose readings flicker at the thresholds, with declined calls and states of all kinds among them. Exit
//! status 1: something differs, or something was not passed through.

#[path = "../../areas/src/counts.rs"]
mod counts;
mod decline;
mod flicker;
mod fly;
mod smallest;
mod stream;

use counts::Counts;
use fly::Driver;
use frames::{CONFIG_RAISED, NO_ROOM, RAISED_STATE_FRAME};
use port::Sides;
use random::Random;

/// A configuration frame becomes one of kind 11.
pub fn kind_eleven(config: &mut [u8]) {
    config[2..4].copy_from_slice(&CONFIG_RAISED.to_le_bytes());
}

/// Every length; bytes after the state stay, and all of them where there is too little room.
fn fresh(sides: &mut Sides) -> Result<(), String> {
    for len in 0..=300 {
        let mut state = vec![0xC3; len];
        let number = sides.fresh_raised(&mut state)?;
        let room = len >= RAISED_STATE_FRAME;
        let after = if room { RAISED_STATE_FRAME } else { 0 };
        assert_eq!(number, if room { 0 } else { NO_ROOM });
        assert!(state[after..].iter().all(|&byte| byte == 0xC3));
    }
    Ok(())
}

fn run(driver: &mut Driver, steps: u64) -> Result<(), String> {
    fresh(&mut driver.sides)?;
    smallest::run(&mut driver.sides)?;
    println!("a fresh state of kind 12 of every length to 300, and the smallest input, as due");
    while driver.steps < steps {
        let left = (steps - driver.steps) as usize;
        let most = 100 + driver.random.below(400);
        driver.fly(left.min(most))?;
    }
    Ok(())
}

fn compare(steps: u64, seed: u64) -> Result<(), String> {
    println!("seed {seed}, {steps} steps");
    let mut driver = Driver {
        random: Random::new(seed),
        sides: Sides::default(),
        counts: Counts::default(),
        steps: 0,
        declined: 0,
        several: 0,
        odd_states: 0,
    };
    run(&mut driver, steps).map_err(|told| {
        format!(
            "after {} steps of seed {seed}:\n{told}differs",
            driver.steps
        )
    })?;
    driver.counts.report();
    println!(
        "{} steps, {} declined calls ({} with several faults), {} steps from states that no flight left: nothing differs",
        driver.steps, driver.declined, driver.several, driver.odd_states
    );
    let missing = driver.missing();
    if missing.is_empty() {
        Ok(())
    } else {
        Err(format!("not passed through: {}", missing.join(", ")))
    }
}

fn main() {
    let words: Vec<String> = std::env::args().skip(1).collect();
    let number = |k: usize, or: u64| words.get(k).map_or(Some(or), |word| word.parse().ok());
    let done = match words.first().map(String::as_str) {
        Some("--write") => match (words.get(1), number(2, 40), number(3, 11)) {
            (Some(folder), Some(streams), Some(seed)) => stream::write(folder, streams, seed),
            _ => usage(),
        },
        _ => match (number(0, 100_000), number(1, 11)) {
            (Some(steps), Some(seed)) if words.len() < 3 => compare(steps, seed),
            _ => usage(),
        },
    };
    if let Err(told) = done {
        println!("{told}");
        std::process::exit(1);
    }
}

fn usage() -> ! {
    eprintln!("usage: raised [STEPS [SEED]] | raised --write FOLDER STREAMS [SEED]");
    std::process::exit(2)
}
