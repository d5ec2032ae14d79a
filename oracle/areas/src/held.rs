//! Adds and removes: every answer beside the plain Rust's, and the frame written beside a fresh list of the areas present.

use std::collections::BTreeMap;

use flights::{
    Ring, area_body, area_frame, areas_frame, break_areas, break_body, damage, ring_near,
};
use frames::AREAS_HELD;
use port::Sides;
use random::Random;

use crate::counts::Counts;

/// Eight areas of sixteen corners, and some room after them.
const ROOM: usize = 1045 + 20;
const BEFORE: u8 = 0x5A;

/// The areas held: the frame that the last add or remove wrote, and a list of what it has to hold.
#[derive(Default)]
pub struct Held {
    pub frame: Vec<u8>,
    present: BTreeMap<u8, Vec<u8>>,
}

impl Held {
    pub fn is_empty(&self) -> bool {
        self.present.is_empty()
    }

    pub fn len(&self) -> usize {
        self.present.len()
    }

    pub fn bodies(&self) -> Vec<Vec<u8>> {
        self.present.values().cloned().collect()
    }

    /// Takes what was written for the areas present; later bytes have to be as they were.
    fn take(&mut self, written: &[u8]) -> Result<(), String> {
        let fresh = areas_frame(&self.bodies());
        let (frame, later) = written.split_at(fresh.len());
        if frame != fresh || later.iter().any(|&byte| byte != BEFORE) {
            return Err(format!("{frame:02X?} is no fresh list of those present\n"));
        }
        self.frame = fresh;
        Ok(())
    }

    pub fn add(&mut self, sides: &mut Sides, body: &[u8]) -> Result<u32, String> {
        let mut output = [BEFORE; ROOM];
        let number = sides.add_area(&self.frame, &area_frame(body), &mut output)?;
        if number == 0 {
            self.present.insert(body[0], body.to_vec());
            self.take(&output)?;
        }
        Ok(number)
    }

    pub fn remove(&mut self, sides: &mut Sides, number: u8) -> Result<u32, String> {
        let mut output = [BEFORE; ROOM];
        let answer = sides.remove_area(&self.frame, number, &mut output)?;
        if answer == 0 {
            self.present.remove(&number);
            self.take(&output)?;
        }
        Ok(answer)
    }
}

/// All orders of some of these numbers, none of them among the orders too.
fn orders(numbers: &[u8]) -> Vec<Vec<u8>> {
    let mut all = vec![Vec::new()];
    for &first in numbers {
        let rest: Vec<u8> = numbers.iter().copied().filter(|&n| n != first).collect();
        for order in orders(&rest) {
            all.push([&[first], order.as_slice()].concat());
        }
    }
    all
}

fn square(north: f32) -> Ring {
    vec![
        (north, -10.0),
        (north, 10.0),
        (north + 20.0, 10.0),
        (north + 20.0, -10.0),
    ]
}

fn due(what: &str, wanted: u32, answered: u32) -> Result<(), String> {
    if wanted == answered {
        return Ok(());
    }
    Err(format!("{what}: {wanted} is due, and it is {answered}\n"))
}

/// Up to four areas put in in every order, each of these taken out in every order, and one put into its place again.
pub fn every_order(sides: &mut Sides) -> Result<usize, String> {
    let numbers = [1, 7, 200, 255];
    let body = |number: u8| area_body(number, &square(100.0 + number as f32));
    let mut tried = 0;
    for add in orders(&numbers) {
        for remove in orders(&add).iter().filter(|order| order.len() == add.len()) {
            let mut held = Held::default();
            for &number in &add {
                due("an add", 0, held.add(sides, &body(number))?)?;
            }
            for &number in remove {
                due("a remove", 0, held.remove(sides, number)?)?;
                due("a remove again", 31, held.remove(sides, number)?)?;
                due("the same again", 0, held.add(sides, &body(number))?)?;
                due(
                    "a second of its number",
                    31,
                    held.add(sides, &body(number))?,
                )?;
                due("a remove", 0, held.remove(sides, number)?)?;
            }
            due("areas left", 0, held.len() as u32)?;
            tried += 1;
        }
    }
    Ok(tried)
}

/// Numbers 0 and 255; home on a side, on a corner and inside; a ninth; several faults at once; every length of the output.
pub fn edges(sides: &mut Sides) -> Result<(), String> {
    let star = [
        (300.0, 0.0),
        (-200.0, -200.0),
        (100.0, 300.0),
        (100.0, -300.0),
        (-200.0, 200.0),
    ];
    let corner = [(0.0, 0.0), (0.0, 20.0), (20.0, 0.0)];
    let (far, on, inside) = (square(100.0), square(0.0), square(-1.0));
    let small = [(100.0, 0.0), (100.0, 9.0), (109.0, 0.0)];
    let mut held = Held::default();
    let answers: [(&str, u8, &[(f32, f32)], u32); 9] = [
        ("number 0", 0, &far, 31),
        ("number 0, two corners", 0, &far[..2], 10),
        ("number 0, home inside", 0, &inside, 31),
        ("home inside", 1, &inside, 32),
        ("home on a side", 1, &on, 0),
        ("home on a corner", 2, &corner, 0),
        ("number 255", 255, &far, 0),
        ("a star", 255, &star, 33),
        ("too small, a number that is held", 255, &small, 17),
    ];
    for (what, number, ring, wanted) in answers {
        due(what, wanted, held.add(sides, &area_body(number, ring))?)?;
    }
    due("to remove 0", 31, held.remove(sides, 0)?)?;
    due("to remove 254", 31, held.remove(sides, 254)?)?;
    for number in 3..AREAS_HELD as u8 + 1 {
        if held.len() < AREAS_HELD {
            due("up to eight", 0, held.add(sides, &area_body(number, &far))?)?;
        }
    }
    let answers: [(&str, u8, &[(f32, f32)], u32); 4] = [
        ("a ninth", 100, &far, 30),
        ("a ninth, home inside", 100, &inside, 30),
        ("a ninth, a number that is held", 255, &inside, 31),
        ("a ninth, a star", 255, &star, 33),
    ];
    for (what, number, ring, wanted) in answers {
        due(what, wanted, held.add(sides, &area_body(number, ring))?)?;
    }
    due("a place", 0, held.remove(sides, 2)?)?;
    let area = area_frame(&area_body(100, &far));
    // A body of four corners has 34 bytes.
    let (larger, smaller) = (held.frame.len() + 34, held.frame.len() - 34);
    for room in 0..=larger {
        let five = |size: usize| if room < size { 5 } else { 0 };
        let mut output = vec![BEFORE; room];
        let answer = sides.add_area(&held.frame, &area, &mut output)?;
        due("an add's room", five(larger), answer)?;
        let answer = sides.remove_area(&held.frame, 255, &mut output)?;
        due("a remove's room", five(smaller), answer)?;
    }
    due(
        "a ninth's place",
        0,
        held.add(sides, &area_body(100, &far))?,
    )
}

/// Adds and removes at random, many of them refused, from none.
pub fn history(
    random: &mut Random,
    sides: &mut Sides,
    counts: &mut Counts,
    calls: usize,
) -> Result<(), String> {
    let mut held = Held::default();
    for _ in 0..calls {
        let number = 1 + random.below(11) as u8;
        if random.chance(3) {
            let answer = held.remove(sides, number)?;
            counts.add("remove", answer);
            continue;
        }
        let place = (random.between(-900.0, 900.0), random.between(-900.0, 900.0));
        let mut body = area_body(number, &ring_near(random, place, 0.0));
        if random.chance(3) {
            body = break_body(random, &body);
        }
        let answer = held.add(sides, &body)?;
        counts.add("add", answer);
        if random.chance(4) {
            damaged(random, sides, counts, &held, &body)?;
        }
    }
    counts.add("areas held after a history", held.len());
    Ok(())
}

/// An add and a remove with faults in frames and room, which nobody keeps.
fn damaged(
    random: &mut Random,
    sides: &mut Sides,
    counts: &mut Counts,
    held: &Held,
    body: &[u8],
) -> Result<(), String> {
    let (mut areas, mut area) = (held.frame.clone(), area_frame(body));
    if random.chance(2) {
        damage(random, &mut area);
    }
    if random.chance(2) {
        areas = break_areas(random, &held.bodies());
    }
    let room = random.one_of(&[0, 4, areas.len(), ROOM, ROOM]);
    let mut output = vec![BEFORE; room];
    let answer = sides.add_area(&areas, &area, &mut output)?;
    counts.add("add", answer);
    let mut output = vec![BEFORE; room];
    let number = body.first().copied().unwrap_or(0);
    let answer = sides.remove_area(&areas, number, &mut output)?;
    counts.add("remove", answer);
    Ok(())
}
