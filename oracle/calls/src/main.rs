//! Writes the fixed list of calls of the entries: the rows that tests/replay asks, and the answers that it has to get.
//! `calls FOLDER` writes FOLDER/rows and FOLDER/answers, always the same ones. docs/LISTS.md has the form of a row.

mod draws;
mod faults;
mod rows;

use random::Random;
use rows::Rows;

const SEED: u64 = 921_279_529;

fn main() -> std::io::Result<()> {
    let Some(folder) = std::env::args().nth(1) else {
        eprintln!("usage: calls FOLDER");
        std::process::exit(2);
    };
    let mut random = Random::new(SEED);
    let mut rows = Rows::default();
    draws::fresh(&mut rows, &mut random);
    draws::flights(&mut rows, &mut random);
    faults::orders(&mut rows, &mut random);
    draws::edits(&mut rows, &mut random);
    rows.report();
    let missing = rows.missing();
    if !missing.is_empty() {
        eprintln!("left out: {}", missing.join(", "));
        std::process::exit(1);
    }
    rows.write(std::path::Path::new(&folder))
}
