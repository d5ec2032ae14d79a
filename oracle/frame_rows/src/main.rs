//! Writes the fixed list of frames, good and damaged: the rows that tests/replay asks, and the answers that
//! it has to get. `frame_rows FOLDER` writes FOLDER/rows and FOLDER/answers, always the same ones.
//! docs/LISTS.md has the form of a row.

mod damage;
mod fences;
mod layout;
mod rows;

use frames::REFUSAL;
use layout::{KINDS, Layout, Presence};
use random::Random;
use rows::Rows;

const SEED: u64 = 921_279_529;

/// Sound frames: every Option absent, every one present, and drawn; with room, and one byte short of it.
fn sound(rows: &mut Rows, random: &mut Random, kind: &Layout) {
    let modes = [
        Presence::None,
        Presence::All,
        Presence::Drawn,
        Presence::Drawn,
        Presence::Drawn,
    ];
    for k in 0..kind.sound {
        let drawn = kind.draw(random, modes[k % 5]);
        let size = drawn.frame.len();
        let room = (size + random.one_of(&[0, 0, 0, 1, 5, 40])).min(252);
        rows.add(kind.kind, room, &drawn.frame);
        if k % 2 == 0 {
            let short = random.one_of(&[size - 1, size - 1, size - 1, size / 2, 3, 0]);
            rows.add(kind.kind, short, &drawn.frame);
        }
    }
}

fn main() -> std::io::Result<()> {
    let Some(folder) = std::env::args().nth(1) else {
        eprintln!("usage: frame_rows FOLDER");
        std::process::exit(2);
    };
    let mut random = Random::new(SEED);
    let mut rows = Rows::new();
    for kind in &KINDS {
        sound(&mut rows, &mut random, kind);
        damage::heads(&mut rows, &mut random, kind);
        damage::values(&mut rows, &mut random, kind);
        damage::several(&mut rows, &mut random, kind);
    }
    for number in (0..=40).chain([255, 256, 0xFFFE, 0xFFFF]) {
        let [low, high] = u16::to_le_bytes(number);
        rows.add(REFUSAL, 6, &[4, 0, 255, 0, low, high]);
    }
    fences::add(&mut rows, &mut random);
    fences::add_once_round(&mut rows, &mut random);
    rows.report();
    let missing = rows.missing();
    if !missing.is_empty() {
        eprintln!("left out: {}", missing.join(", "));
        std::process::exit(1);
    }
    rows.write(std::path::Path::new(&folder))
}
