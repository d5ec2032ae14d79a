//! The port's failsafe_spell_fence beside document 02's L12 in plain Rust, on the same fences:
//!   spellings [FENCES [SEED]]
//!   spellings --search          looks for fences that are 39
//! each fence in all rotations and both directions, with −0 for 0 here and there, damaged frames and short outputs
//! among them. Exit status 1: something differs, or something was not passed through.

use std::collections::BTreeMap;

use flights::{break_fence, damage, fence_frame, once_round, star};
use frames::{Corners, FenceSent, fence_open, read_fence, write_fence};
use random::Random;

type Corner = (f32, f32);

/// −0 plus 0 is 0.
fn plain(corner: &Corner) -> Corner {
    (corner.0 + 0.0, corner.1 + 0.0)
}

/// Every way to write a ring.
fn ways(ring: &[Corner]) -> Vec<Vec<Corner>> {
    let mut all = Vec::new();
    for at in 0..ring.len() {
        let mut way = ring.to_vec();
        way.rotate_left(at);
        all.push(way.clone());
        way.reverse();
        all.push(way);
    }
    all
}

/// Of all ways to write a ring the one that is before all others, by its first corner and then by its second.
fn one_form(ring: &[Corner]) -> Vec<Corner> {
    let key = |way: &[Corner]| [way[0].0, way[0].1, way[1].0, way[1].1];
    let plain: Vec<Corner> = ring.iter().map(plain).collect();
    let all = ways(&plain).into_iter();
    all.min_by(|a, b| key(a).partial_cmp(&key(b)).expect("numbers"))
        .expect("a ring")
}

fn sent(fence: &FenceSent, ring: &[Corner]) -> FenceSent {
    let mut at = [(0.0, 0.0); 16];
    at[..ring.len()].copy_from_slice(ring);
    FenceSent {
        corners: Corners {
            count: ring.len(),
            at,
        },
        ..*fence
    }
}

/// What document 02 says: the number, and the output after the call.
fn spell(frame: &[u8], out: &mut [u8]) -> Result<(), u32> {
    // A kind 2 is not due: as a third kind it is 2 where a kind is looked at.
    let mut looked = frame.to_vec();
    if looked.get(2..4) == Some(&[2, 0]) {
        looked[2] = 99;
    }
    let fence = read_fence(&looked)?;
    fence_open(&fence)?;
    let ring = one_form(&fence.corners.at[..fence.corners.count]);
    let mut form = sent(&fence, &ring);
    form.min_alt_m += 0.0;
    form.max_alt_m += 0.0;
    fence_open(&form).map_err(|_| 39u32)?;
    write_fence(&form, out).map(|_| ())
}

struct Driver {
    random: Random,
    counts: BTreeMap<String, u64>,
}

impl Driver {
    fn count(&mut self, what: String) {
        *self.counts.entry(what).or_default() += 1;
    }

    /// The port's number and output, which are the Rust's.
    fn beside(&mut self, frame: &[u8], room: usize) -> Result<(u32, Vec<u8>), String> {
        let before: Vec<u8> = (0..room).map(|k| k as u8 ^ 0x5A).collect();
        let (mut ours, mut theirs) = (before.clone(), before);
        let wanted = spell(frame, &mut ours).err().unwrap_or(0);
        let number = port::spell_fence(frame, &mut theirs);
        if number != wanted || ours != theirs {
            return Err(format!(
                "frame {frame:02x?}, room {room}: the Rust answers {wanted} {ours:02x?}, the port {number} {theirs:02x?}"
            ));
        }
        self.count(format!("number {number}"));
        Ok((number, theirs))
    }

    /// All ways of one ring: the same bytes, or each of them 39 or declined for itself.
    fn ring(&mut self, low: f32, high: f32, ring: &[Corner]) -> Result<(), String> {
        let size = 13 + 8 * ring.len();
        let mut written: Option<(u32, Vec<u8>)> = None;
        for way in ways(ring) {
            let minus = |x: f32, random: &mut Random| {
                if x == 0.0 && random.chance(2) { -x } else { x }
            };
            let way: Vec<Corner> = way
                .iter()
                .map(|c| (minus(c.0, &mut self.random), minus(c.1, &mut self.random)))
                .collect();
            let low = minus(low, &mut self.random);
            let frame = once_round(fence_frame(low, high, &way));
            let (number, bytes) = self.beside(&frame, size)?;
            if number != 0 && number != 39 {
                continue;
            }
            match &written {
                None => written = Some((number, bytes.clone())),
                Some(first) if *first != (number, bytes.clone()) => {
                    return Err(format!("two ways of {ring:?} are written otherwise"));
                }
                Some(_) => {}
            }
            if number == 0 {
                let (again, same) = self.beside(&bytes, size)?;
                if (again, &same) != (0, &bytes) {
                    return Err(format!("{ring:?} is spelled otherwise again"));
                }
            }
        }
        Ok(())
    }

    /// A ring that is mostly accepted; some with zeros, equal norths, an area near 100, or corners nearly in line.
    fn draw(&mut self) -> Vec<Corner> {
        let random = &mut self.random;
        let count = 3 + random.below(14);
        let radius = random.one_of(&[6.5, 20.0, 300.0, 9000.0]);
        let mut ring = random::circle(random, count, radius, (0.0, 0.0));
        match random.below(6) {
            0 => ring = near_limit(random),
            1 => ring = near_line(random),
            2 => ring
                .iter_mut()
                .for_each(|c| *c = (c.0.round(), c.1.round())),
            3 => {
                let (n, e) = (random.between(8.0, 900.0), random.between(13.0, 900.0));
                ring = vec![(0.0, 0.0), (0.0, e), (n, e), (n, 0.0)];
            }
            _ => {}
        }
        if random.chance(2) {
            ring.reverse();
        }
        ring
    }

    fn run(&mut self, fences: usize) -> Result<(), String> {
        for (why, ring) in KEPT {
            let frame = once_round(fence_frame(5.0, 120.0, ring));
            let form = once_round(fence_frame(5.0, 120.0, &one_form(ring)));
            let declined = fence_open(&read_fence(&form).expect("a frame")).err();
            let (number, _) = self.beside(&frame, 141)?;
            if (number, declined) != (39, Some(why)) {
                return Err(format!("{ring:?} is {number} and not 39 by {why}"));
            }
        }
        for _ in 0..fences {
            let low = self.random.one_of(&[0.0, -0.0, 5.0, -3.5]);
            let ring = self.draw();
            self.ring(low, 120.0, &ring)?;
            let mut frame = fence_frame(low, 120.0, &ring);
            match self.random.below(5) {
                0 => {}
                1 => frame = once_round(star(&mut self.random)),
                2 => frame = once_round(break_fence(&mut self.random)),
                _ => {
                    frame = once_round(frame);
                    damage(&mut self.random, &mut frame);
                }
            }
            let room = self
                .random
                .one_of(&[0, 12, 13 + 8 * ring.len() - 1, 141, 200]);
            self.beside(&frame, room)?;
        }
        let wanted = (0..=3).chain([5]).chain(10..=18).chain([33, 39]);
        let missing: Vec<String> = wanted
            .map(|number| format!("number {number}"))
            .filter(|what| !self.counts.contains_key(what))
            .collect();
        if missing.is_empty() {
            Ok(())
        } else {
            Err(format!("not passed through: {}", missing.join(", ")))
        }
    }
}

/// A triangle or a square of nearly 100 square metres.
fn near_limit(random: &mut Random) -> Vec<Corner> {
    let (n, e) = (
        random.between(-9000.0, 9000.0),
        random.between(-9000.0, 9000.0),
    );
    let wide = random.between(5.0, 20.0);
    let high = 100.0 / wide;
    if random.chance(2) {
        vec![(n, e), (n + high, e), (n + high, e + wide), (n, e + wide)]
    } else {
        vec![(n, e), (n + 2.0 * high, e), (n, e + wide)]
    }
}

/// Four corners, of which three are nearly in line.
fn near_line(random: &mut Random) -> Vec<Corner> {
    let (n, e) = (
        random.between(-9000.0, 9000.0),
        random.between(-9000.0, 9000.0),
    );
    let (m, f) = (
        random.between(-9000.0, 9000.0),
        random.between(-9000.0, 9000.0),
    );
    let part = random.between(0.2, 0.8);
    let off = random.between(-0.002, 0.002);
    let between = (n + (m - n) * part + off, e + (f - e) * part - off);
    let side = random.one_of(&[-3000.0, 3000.0]);
    let apex = (
        (n + m) / 2.0 - (f - e).signum() * side,
        (e + f) / 2.0 + (m - n).signum() * side,
    );
    vec![(n, e), between, (m, f), apex]
}

/// Rings that are accepted as kind 8 and whose one form is not: two by 16, two by 17.
const KEPT: [(u32, &[Corner]); 4] = [
    (
        16,
        &[
            (5568.4663, -5440.695),
            (4434.1636, -2851.2036),
            (4069.6223, -2018.9952),
            (7819.0444, -729.845),
        ],
    ),
    (
        16,
        &[
            (-5620.1733, -4201.5205),
            (3088.8445, -7598.94),
            (5332.355, -8474.142),
            (2856.0908, -3337.831),
        ],
    ),
    (
        17,
        &[
            (-3303.9868, 4.46105),
            (-3295.4143, 4.46105),
            (-3295.4143, 16.126112),
            (-3303.9868, 16.126112),
        ],
    ),
    (
        17,
        &[
            (-94.908356, -8.178592),
            (-84.04446, -8.178592),
            (-94.908356, 10.231004),
        ],
    ),
];

/// Looks for such fences, and prints them.
fn search(seed: u64) {
    let mut driver = Driver {
        random: Random::new(seed),
        counts: BTreeMap::new(),
    };
    let mut found = BTreeMap::new();
    for _ in 0..20_000_000u64 {
        let ring = if driver.random.chance(2) {
            near_limit(&mut driver.random)
        } else {
            near_line(&mut driver.random)
        };
        let frame = once_round(fence_frame(5.0, 120.0, &ring));
        let fence = read_fence(&frame).expect("a frame");
        if fence_open(&fence).is_ok() {
            if let Err(number) = fence_open(&sent(&fence, &one_form(&ring))) {
                let count: &mut u32 = found.entry(number).or_default();
                *count += 1;
                if *count <= 2 {
                    println!("{number}: {ring:?}");
                }
            }
        }
    }
    println!("{found:?}");
}

fn main() {
    let words: Vec<String> = std::env::args().skip(1).collect();
    if words.first().is_some_and(|word| word == "--search") {
        return search(1);
    }
    let number = |k: usize, or: u64| words.get(k).map_or(or, |x| x.parse().expect("a number"));
    let (fences, seed) = (number(0, 3000), number(1, 1));
    println!("seed {seed}, {fences} fences");
    let mut driver = Driver {
        random: Random::new(seed),
        counts: BTreeMap::new(),
    };
    let done = driver.run(fences as usize);
    let told: Vec<String> = driver
        .counts
        .iter()
        .map(|(what, n)| format!("{what}: {n}"))
        .collect();
    println!("{}", told.join(", "));
    if let Err(told) = done {
        println!("{told}");
        std::process::exit(1);
    }
    println!("nothing differs");
}
