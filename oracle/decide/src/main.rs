//! Document 01's program `decide` in plain Rust: reads a kind 1, a kind 2 or 8, then kind 3 frames, each with at most one
//! kind 13 before it, and writes one kind 4 frame a step; at the first refusal one kind 255 frame. It reads and writes in
//! blocks, and writes what it has before it waits for more. It steps the Rust with its fields public, since areas stand in
//! for a fence (oracle/frames); oracle/flights and oracle/areas hold that build to the Rust as it is.

use std::io::{Read, Write};

use failsafe_open::{Config, Decision, Supervisor, Telemetry};
use frames::{
    AREAS, Areas, CONFIG, DECISION, DECISION_FRAME, REFUSAL_FRAME, TELEMETRY, TRUNCATED,
    config_error_open, fence_open, put_frame, put_refusal, read_areas, read_fence, read_frame,
    step_clear,
};

/// The longest frame.
const LONGEST: usize = 2 + 65_535;
const BLOCK: usize = 1 << 16;

/// A flight under way: the areas held, and whether they came with the last frame.
struct Flight {
    supervisor: Supervisor,
    areas: Areas,
    areas_last: bool,
}

impl Flight {
    /// Areas where they are due; else telemetry is.
    fn take(&mut self, frame: &[u8]) -> Result<Option<Decision>, u32> {
        if !self.areas_last && frame.get(2..4) == Some(&AREAS.to_le_bytes()) {
            self.areas = read_areas(frame)?;
            self.areas_last = true;
            return Ok(None);
        }
        let raw: Telemetry = read_frame(TELEMETRY, frame)?;
        self.areas_last = false;
        Ok(Some(if self.areas.is_empty() {
            self.supervisor.step(&raw)
        } else {
            step_clear(&mut self.supervisor, &self.areas, &raw).0
        }))
    }
}

enum Due {
    Config,
    Fence(Box<Config>),
    Telemetry(Box<Flight>),
}

impl Due {
    /// Takes the next frame; true where it filled `to` with a Decision.
    fn take(&mut self, frame: &[u8], to: &mut [u8]) -> Result<bool, u32> {
        match self {
            Due::Config => {
                *self = Due::Fence(Box::new(read_frame(CONFIG, frame)?));
                Ok(false)
            }
            Due::Fence(cfg) => {
                let fence = fence_open(&read_fence(frame)?)?;
                let supervisor = Supervisor::new(**cfg, fence).map_err(config_error_open)?;
                *self = Due::Telemetry(Box::new(Flight {
                    supervisor,
                    areas: Areas::default(),
                    areas_last: false,
                }));
                Ok(false)
            }
            Due::Telemetry(flight) => {
                let decision = flight.take(frame)?;
                if let Some(decision) = &decision {
                    put_frame(DECISION, decision, to);
                }
                Ok(decision.is_some())
            }
        }
    }
}

/// The bytes of the first frame, where all of them are there.
fn whole(bytes: &[u8]) -> Option<usize> {
    let head = bytes.get(..2)?;
    let length = 2 + u16::from_le_bytes([head[0], head[1]]) as usize;
    (bytes.len() >= length).then_some(length)
}

/// A fault to put in, by CUTHRANSI_FAULT, that the driver of the streams has to see.
#[derive(PartialEq)]
enum Fault {
    None,
    /// Ends where its output block was full once.
    EndsEarly,
    /// Writes each answer by itself.
    OneByOne,
    /// Goes on after a failed write.
    WriteIgnored,
    /// Ends after ten thousand reads.
    FewReads,
}

impl Fault {
    fn put_in() -> Self {
        match std::env::var("CUTHRANSI_FAULT").as_deref() {
            Ok("1") => Fault::EndsEarly,
            Ok("2") => Fault::OneByOne,
            Ok("3") => Fault::WriteIgnored,
            Ok("4") => Fault::FewReads,
            _ => Fault::None,
        }
    }
}

struct Output {
    bytes: Vec<u8>,
    used: usize,
    full: bool,
    fault: Fault,
}

impl Output {
    /// Room for one more frame, after what is there was written out where need be.
    fn room(&mut self) -> std::io::Result<&mut [u8]> {
        if self.used + DECISION_FRAME > self.bytes.len() {
            self.flush()?;
            self.full = true;
        }
        Ok(&mut self.bytes[self.used..])
    }

    fn flush(&mut self) -> std::io::Result<()> {
        let mut out = std::io::stdout().lock();
        let done = out
            .write_all(&self.bytes[..self.used])
            .and_then(|()| out.flush());
        self.used = 0;
        match self.fault {
            Fault::WriteIgnored => Ok(()),
            _ => done,
        }
    }

    fn refuse(&mut self, number: u32) -> std::io::Result<()> {
        put_refusal(number, self.room()?);
        self.used += REFUSAL_FRAME;
        self.flush()
    }
}

fn main() -> std::io::Result<()> {
    let mut due = Due::Config;
    let mut input = vec![0; LONGEST + BLOCK];
    let (mut from, mut to) = (0, 0);
    let mut output = Output {
        bytes: vec![0; BLOCK],
        used: 0,
        full: false,
        fault: Fault::put_in(),
    };
    let mut reads = 0;
    let mut stdin = std::io::stdin().lock();
    loop {
        while let Some(length) = whole(&input[from..to]) {
            match due.take(&input[from..from + length], output.room()?) {
                Ok(true) => output.used += DECISION_FRAME,
                Ok(false) => {}
                Err(number) => return output.refuse(number),
            }
            from += length;
            match output.fault {
                Fault::EndsEarly if output.full => return output.flush(),
                Fault::OneByOne => output.flush()?,
                _ => {}
            }
        }
        output.flush()?;
        reads += 1;
        if output.fault == Fault::FewReads && reads > 10_000 {
            return Ok(());
        }
        input.copy_within(from..to, 0);
        (from, to) = (0, to - from);
        match stdin.read(&mut input[to..])? {
            0 if to > 0 => return output.refuse(TRUNCATED),
            0 => return Ok(()),
            more => to += more,
        }
    }
}
