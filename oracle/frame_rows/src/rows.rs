//! Rows of frames and their answers, as text.

use std::collections::BTreeMap;
use std::path::Path;

use frames::{
    BAD_VALUE, CONFIG, DECISION, FENCE, Field, REFUSAL, STATE, State, TELEMETRY, fence_core,
    fence_open, read_fence, read_frame, write_fence, write_frame,
};
use words::{line, packed};

/// More bytes than these no frame of the list has, and a buffer neither.
const MOST_BYTES: usize = 2064;
const BUFFER: usize = 256;
const MOST_ROOM: usize = 252;
/// What a buffer has before it is written to.
const UNTOUCHED: u8 = 0xA5;

/// The answers of the fence rules and of the writer, or the reader's refusal.
type Reply = Result<(u32, u32), u32>;

fn number(result: Result<(), u32>) -> u32 {
    result.err().unwrap_or(0)
}

fn anew<T: Field>(kind: u16, frame: &[u8], to: &mut [u8]) -> Reply {
    let value: T = read_frame(kind, frame)?;
    Ok((0, number(write_frame(kind, &value, to))))
}

/// The same of both builds of the Rust.
fn of_both<A: Field, B: Field>(kind: u16, frame: &[u8], to: &mut [u8]) -> Reply {
    let mut copy = to.to_vec();
    let other = anew::<B>(kind, frame, &mut copy);
    let reply = anew::<A>(kind, frame, to);
    assert_eq!((reply, &*to), (other, &*copy));
    reply
}

fn fence(frame: &[u8], to: &mut [u8]) -> Reply {
    let sent = read_fence(frame)?;
    let rules = number(fence_core(&sent).map(|_| ()));
    assert_eq!(rules, number(fence_open(&sent).map(|_| ())));
    let written = if sent.corners.count > 16 {
        11
    } else {
        number(write_fence(&sent, to).map(|_| ()))
    };
    Ok((rules, written))
}

fn state(frame: &[u8], to: &mut [u8]) -> Reply {
    let value = State::read_frame(frame)?;
    Ok((0, number(write_frame(STATE, &value, to))))
}

fn reply(kind: u16, frame: &[u8], to: &mut [u8]) -> Reply {
    use {failsafe_core as core, failsafe_open as open};
    match kind {
        CONFIG => of_both::<core::Config, open::Config>(kind, frame, to),
        FENCE => fence(frame, to),
        TELEMETRY => of_both::<core::Telemetry, open::Telemetry>(kind, frame, to),
        DECISION => of_both::<core::Decision, open::Decision>(kind, frame, to),
        STATE => state(frame, to),
        REFUSAL => anew::<u16>(kind, frame, to),
        _ => unreachable!("no such kind"),
    }
}

pub struct Rows {
    rows: String,
    answers: String,
    counts: BTreeMap<(u16, &'static str, u32), usize>,
}

impl Rows {
    pub fn new() -> Self {
        Rows {
            rows: String::new(),
            answers: String::new(),
            counts: BTreeMap::new(),
        }
    }

    /// A frame that is read as one of this kind, and written to a slice of `room` bytes.
    pub fn add(&mut self, kind: u16, room: usize, frame: &[u8]) {
        assert!(frame.len() <= MOST_BYTES && room <= MOST_ROOM);
        let mut row = vec![kind as u32, room as u32, frame.len() as u32];
        row.extend(packed(frame));
        line(&mut self.rows, row.iter());
        let mut buffer = [UNTOUCHED; BUFFER];
        let answer = match reply(kind, frame, &mut buffer[..room]) {
            Err(refused) => {
                self.count(kind, "refused", refused);
                vec![refused]
            }
            Ok((rules, written)) => {
                self.count(kind, "rules", rules);
                self.count(kind, "written", written);
                let mut answer = vec![0, rules, written];
                answer.extend(packed(&buffer[..(room + 7) / 4 * 4]));
                answer
            }
        };
        line(&mut self.answers, answer.iter());
    }

    fn count(&mut self, kind: u16, what: &'static str, number: u32) {
        *self.counts.entry((kind, what, number)).or_default() += 1;
    }

    /// What has to be there several times, and is not.
    pub fn missing(&self) -> Vec<String> {
        let mut due = Vec::new();
        for kind in [CONFIG, FENCE, TELEMETRY, DECISION, STATE, REFUSAL] {
            due.extend([1, 2, 3].map(|n| (kind, "refused", n)));
            due.extend([0, 5].map(|n| (kind, "written", n)));
        }
        due.extend([CONFIG, TELEMETRY, DECISION, STATE].map(|kind| (kind, "refused", BAD_VALUE)));
        due.extend((10..=18).chain([33]).map(|n| (FENCE, "rules", n)));
        due.push((FENCE, "written", 11));
        due.retain(|key| self.counts.get(key).is_none_or(|&count| count < 3));
        due.iter()
            .map(|(kind, what, number)| format!("kind {kind} {what} {number}"))
            .collect()
    }

    pub fn report(&self) {
        for ((kind, what, number), count) in &self.counts {
            eprintln!("kind {kind} {what} {number}: {count}");
        }
        eprintln!("rows: {}", self.rows.lines().count());
    }

    pub fn write(&self, folder: &Path) -> std::io::Result<()> {
        std::fs::create_dir_all(folder)?;
        std::fs::write(folder.join("rows"), &self.rows)?;
        std::fs::write(folder.join("answers"), &self.answers)
    }
}
