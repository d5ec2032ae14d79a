//! Writes the fixed list of the Rust's answers on its leaves: the rows that tests/replay asks, and the answers
//! that it has to get. `lists FOLDER` writes FOLDER/rows and FOLDER/answers, always the same ones.
//! docs/LISTS.md has the form of a row.

mod config;
mod energy;
mod gate;
mod leaves;
mod polygons;
mod rows;

use rows::Rows;

const SEED: u64 = 921_279_529;

fn main() -> std::io::Result<()> {
    let Some(folder) = std::env::args().nth(1) else {
        eprintln!("usage: lists FOLDER");
        std::process::exit(2);
    };
    let mut random = random::Random::new(SEED);
    let mut rows = Rows::new();
    leaves::add(&mut rows, &mut random);
    polygons::add(&mut rows, &mut random);
    config::add(&mut rows, &mut random);
    energy::add(&mut rows, &mut random);
    gate::add(&mut rows, &mut random);
    rows.report();
    rows.write(std::path::Path::new(&folder))
}
