//! Writes the fixed list of the Rust's flights: the rows that tests/replay asks, and the answers that it has
//! to get. `flights FOLDER` writes FOLDER/rows and FOLDER/answers, always the same ones;
//! `flights FOLDER FLIGHTS SEED` draws that many flights in place of the list's, from another seed.

mod exact;
mod rows;
mod script;

use failsafe_open::{Config, Decision, Telemetry};
use flights::{Both, Coverage, Pilot, Setup};
use frames::{DECISION, TELEMETRY, TELEMETRY_FRAME, put_frame, read_frame};
use random::Random;
use rows::Rows;

const SEED: u64 = 921_279_529;
/// Flights of the pilot, and steps of each.
const FLIGHTS: u64 = 25;
const STEPS: usize = 100;

/// A flight under way, which files each of its steps.
pub struct Flight<'a> {
    setup: Setup,
    both: Both,
    rows: &'a mut Rows,
    coverage: &'a mut Coverage,
}

impl<'a> Flight<'a> {
    fn begin(setup: Setup, rows: &'a mut Rows, coverage: &'a mut Coverage) -> Self {
        let both = Both::new(&setup.config, &setup.fence).expect("an accepted configuration");
        rows.begin(&setup.config, &setup.fence, 0);
        Flight {
            setup,
            both,
            rows,
            coverage,
        }
    }

    fn step(&mut self, t: Telemetry) {
        let old = self.both.state();
        let mut frame = [0; TELEMETRY_FRAME];
        put_frame(TELEMETRY, &t, &mut frame);
        let d: Decision = read_frame(DECISION, &self.both.step(&frame)).expect("a Decision");
        self.coverage
            .step(&self.setup, &old, &t, &d, &self.both.state());
        self.rows.step(&t, &d, &self.both.state_frame());
    }

    /// The last sound clock reading.
    fn last(&self) -> u32 {
        self.both.state().last_now.unwrap_or(0)
    }
}

/// Configurations that `Supervisor::new` refuses.
fn refused(rows: &mut Rows) {
    let good = Setup::defaults();
    let changes: [fn(&mut Config); 8] = [
        |c| c.cell_count = 0,
        |c| c.usable_capacity_wh = f32::NAN,
        |c| c.v_cruise = f32::INFINITY,
        |c| c.v_climb = 0.0,
        |c| c.p_desc = -1.0,
        |c| c.battery_warn_pct = 20.0,
        |c| c.recovery_hold_ms = 0,
        |c| c.h_rtl = 121.0,
    ];
    for change in changes {
        let mut cfg = good.cfg;
        change(&mut cfg);
        let config = flights::config_frame(&cfg);
        let number = Both::new(&config, &good.fence).err().expect("a refusal");
        rows.begin(&config, &good.fence, number);
    }
}

fn main() -> std::io::Result<()> {
    let words: Vec<String> = std::env::args().skip(1).collect();
    let number = |k: usize, or: u64| words.get(k).map_or(Some(or), |word| word.parse().ok());
    let (Some(folder), Some(drawn), Some(seed)) =
        (words.first(), number(1, FLIGHTS), number(2, SEED))
    else {
        eprintln!("usage: flights FOLDER [FLIGHTS [SEED]]");
        std::process::exit(2);
    };
    let (mut rows, mut coverage) = (Rows::default(), Coverage::default());
    refused(&mut rows);
    for cfg in [Config::default(), script::frugal()] {
        for (k, trouble) in script::troubles().enumerate() {
            let start = [0, 0x7FFF_E000, 0xFFFF_E000][k % 3];
            let mut flight = Flight::begin(Setup::with(&cfg), &mut rows, &mut coverage);
            script::trouble(&mut flight, trouble, start);
        }
        for (lesser, greater) in script::PAIRS {
            let mut flight = Flight::begin(Setup::with(&cfg), &mut rows, &mut coverage);
            script::pair(&mut flight, lesser, greater);
        }
    }
    let mut random = Random::new(seed);
    for _ in 0..drawn {
        let setup = Setup::random(&mut random);
        let mut pilot = Pilot::new(&mut random);
        let mut flight = Flight::begin(setup, &mut rows, &mut coverage);
        for _ in 0..STEPS {
            let t = pilot.next(&mut random, &flight.setup, &flight.both.state());
            flight.step(t);
        }
    }
    let mut random = Random::new(seed);
    let limits: [fn(&mut Flight, &mut Random); 3] = [exact::fly, exact::jumps, exact::disarms];
    for cfg in [Config::default(), script::frugal()] {
        for fly in limits {
            let mut flight = Flight::begin(Setup::with(&cfg), &mut rows, &mut coverage);
            fly(&mut flight, &mut random);
        }
    }
    coverage.report();
    println!(
        "flights: {}, of them refused: {}, steps: {}",
        rows.flights, rows.refused, coverage.steps
    );
    assert!(
        coverage.missing().is_empty(),
        "the list has to pass through everything"
    );
    rows.write(std::path::Path::new(folder))
}
