//! Both clocks beside each other: a flight on the 32-bit clock, carried over on its way or not begun, then the same calls to
//! both, which differ in the upper halves of the instants alone. No reading goes back, no stamp is ahead, and every age, held
//! ones too, and every gap is under 2^31: the Decisions are the same, and the states but for the upper halves.

use failsafe_open::Telemetry;
use flights::{Pilot, Setup, break_areas, break_config, break_fence, damage};
use frames::places::{
    EPOCH, LAST_NOW, STATE_INSTANTS, TELEMETRY_INSTANTS, instant, narrowed, wide_byte, wide_place,
    widened_telemetry,
};
use frames::{
    STATE_FRAME, State, TELEMETRY, TELEMETRY_FRAME, WIDE_STATE_FRAME, fresh_wide_entry, put_frame,
    step_any, widen_entry,
};
use port::{Call, Entry};
use random::Random;

use crate::clock;
use crate::fly::Driver;

const HALF: u32 = 1 << 31;

/// The same flight on both clocks.
struct Pair {
    narrow: Call,
    wide: Call,
    /// Whether the epoch kept its age.
    epoch: bool,
}

fn low(frame: &[u8], at: usize) -> u32 {
    u32::from_le_bytes(*frame[at..].first_chunk().expect("four bytes"))
}

/// How far the clock may go on, with every held age under 2^31.
fn room(state: &[u8], last: u32) -> u32 {
    let held = STATE_INSTANTS[..LAST_NOW].iter();
    let ages = held
        .filter(|&&at| state[at - 1] == 1)
        .map(|&at| last.wrapping_sub(low(state, at)));
    (HALF - 1).saturating_sub(ages.max().unwrap_or(0))
}

impl Driver {
    fn step_narrow(&mut self, call: &mut Call) -> Result<u32, String> {
        if self.reference {
            self.sides.step(call)
        } else {
            self.sides.step_wide(call)
        }
    }

    fn step_on_wide(&mut self, call: &mut Call) -> Result<u32, String> {
        if !self.reference {
            return self.sides.step_wide(call);
        }
        let form = call.entry.form(&call.areas);
        let (c, f, t) = (&call.config, &call.fence, &call.telemetry);
        Ok(step_any(form, c, f, &mut call.state, t, &mut call.output))
    }

    fn widen(&mut self, old: &[u8], t: u64, new: &mut [u8]) -> Result<u32, String> {
        if self.reference {
            return Ok(widen_entry(old, t, new));
        }
        self.sides.widen(old, t, new)
    }

    fn fresh_pair(&mut self, setup: &Setup) -> Result<Pair, String> {
        let mut narrow = Call {
            config: setup.config.to_vec(),
            fence: setup.fence.clone(),
            state: vec![0; STATE_FRAME],
            ..Call::default()
        };
        self.sides.fresh(&mut narrow.state)?;
        let mut wide = narrow.clone();
        wide.state = vec![0; WIDE_STATE_FRAME];
        if self.reference {
            fresh_wide_entry(&mut wide.state);
        } else {
            self.sides.fresh_wide(&mut wide.state)?;
        }
        Ok(Pair {
            narrow,
            wide,
            epoch: true,
        })
    }

    /// One flight: at first on the 32-bit clock alone, with faults and stamps ahead, then on both.
    pub fn fly_both(&mut self, steps: usize) -> Result<(), String> {
        let setup = self.setup();
        let mut pilot = Pilot::wide(&mut self.random);
        let mut pair = self.fresh_pair(&setup)?;
        let alone = self.random.one_of(&[0, 1, 5, 40, 120]);
        let mut carried = alone == 0;
        let calm = !self.random.chance(4);
        for k in 0..alone + steps {
            let held = State::read_frame(&pair.narrow.state).expect("a state of kind 5");
            let t = pilot.next(&mut self.random, &setup, &held);
            let place = t.position.map(|s| (s.pos.n, s.pos.e));
            let place = place.filter(|_| self.random.chance(4));
            self.equip(&mut pair.narrow, place);
            if !carried {
                if k >= alone {
                    carried = self.carry_over(&mut pair)?;
                }
                if !carried {
                    let now = if calm {
                        calmed(&held, t.now_ms)
                    } else {
                        t.now_ms
                    };
                    put_telemetry(&mut pair.narrow, &t, now);
                    let number = self.step_narrow(&mut pair.narrow)?;
                    assert_eq!(number, 0, "a step of a flight is declined");
                    continue;
                }
            }
            if !self.lawful(&mut pair, &t) {
                self.counts.add("both clocks", "ended by a held age");
                return Ok(());
            }
            if self.random.chance(4) {
                self.decline_both(&pair)?;
            }
            self.step_both(&mut pair)?;
        }
        Ok(())
    }

    /// The state carried over, where it can be.
    fn carry_over(&mut self, pair: &mut Pair) -> Result<bool, String> {
        let last = low(&pair.narrow.state, STATE_INSTANTS[LAST_NOW]);
        let random = &mut self.random;
        let any = random.u32() >> 1;
        let upper = u64::from(random.one_of(&[0, 0, 1, 3, u32::MAX >> 1, any]));
        let t = upper << 32 | u64::from(last);
        let number = self.widen(&pair.narrow.state, t, &mut pair.wide.state)?;
        let epoch = low(&pair.narrow.state, STATE_INSTANTS[EPOCH]);
        let at = wide_place(&STATE_INSTANTS, EPOCH);
        pair.epoch = number == 0 && instant(&pair.wide.state, at) as u32 == epoch;
        let told = match (number, pair.epoch) {
            (0, true) => "carried over, the epoch with its age",
            (0, false) => "carried over, the epoch without",
            _ => "not to be carried over",
        };
        self.counts.add("both clocks", told);
        Ok(number == 0)
    }

    /// The pilot's telemetry within the conditions, on both clocks; no where no gap is left.
    fn lawful(&mut self, pair: &mut Pair, t: &Telemetry) -> bool {
        let random = &mut self.random;
        let begun = pair.narrow.state[185] == 1;
        let (now, now_wide) = if begun {
            let last = low(&pair.narrow.state, STATE_INSTANTS[LAST_NOW]);
            let most = room(&pair.narrow.state, last);
            if most == 0 {
                return false;
            }
            let gap = match t.now_ms.wrapping_sub(last) {
                HALF.. => random.below(300) as u32,
                gap if gap > 1 << 20 && !random.chance(40) => gap % 5000,
                gap => gap,
            };
            let gap = gap.min(most);
            let last_wide = clock::last_now(&pair.wide.state);
            (last.wrapping_add(gap), last_wide + u64::from(gap))
        } else {
            let any = random.u32() >> 1;
            let upper = u64::from(random.one_of(&[0, 0, 1, 3, any]));
            (t.now_ms, upper << 32 | u64::from(t.now_ms))
        };
        let mut frame = vec![0; TELEMETRY_FRAME];
        put_frame(TELEMETRY, t, &mut frame);
        pair.wide.telemetry = widened_telemetry(&frame, |number, stamp| {
            if number == 0 {
                return now_wide;
            }
            let age = t.now_ms.wrapping_sub(stamp) % HALF;
            now_wide - u64::from(age).min(now_wide)
        });
        frame = narrowed(&pair.wide.telemetry);
        assert_eq!(low(&frame, TELEMETRY_INSTANTS[0]), now, "the lower half");
        pair.narrow.telemetry = frame;
        for other in [Wide::Entry, Wide::Output, Wide::Areas] {
            other.copy(&pair.narrow, &mut pair.wide);
        }
        true
    }

    fn step_both(&mut self, pair: &mut Pair) -> Result<(), String> {
        let numbers = (
            self.step_narrow(&mut pair.narrow)?,
            self.step_on_wide(&mut pair.wide)?,
        );
        if numbers != (0, 0) {
            return Err(format!("both clocks: declined with {numbers:?}\n"));
        }
        if pair.narrow.output != pair.wide.output {
            return Err(told(pair, "another Decision"));
        }
        let mut left = narrowed(&pair.wide.state);
        if !pair.epoch {
            let at = STATE_INSTANTS[EPOCH];
            left[at..at + 4].copy_from_slice(&pair.narrow.state[at..at + 4]);
        }
        if left != pair.narrow.state {
            return Err(told(pair, "another state"));
        }
        self.beside += 1;
        self.steps += 1;
        self.counts
            .add("both clocks, action", pair.narrow.output[4]);
        Ok(())
    }

    /// A call with the same fault on both clocks: declined with the same number, or the same Decision.
    fn decline_both(&mut self, pair: &Pair) -> Result<(), String> {
        let (mut narrow, mut wide) = (pair.narrow.clone(), pair.wide.clone());
        let random = &mut self.random;
        match random.below(6) {
            0 => damage(random, &mut narrow.config),
            1 => narrow.fence = break_fence(random),
            2 => narrow.output.truncate(random.below(97)),
            3 => {
                narrow.entry = Entry::Areas;
                narrow.output.resize(96, 0);
                narrow.areas = break_areas(random, &[]);
            }
            4 => {
                if let Ok(config) = narrow.config.as_mut_slice().try_into() {
                    break_config(random, config);
                }
            }
            _ => same_byte(random, &mut narrow, &mut wide),
        }
        for other in [
            Wide::Config,
            Wide::Fence,
            Wide::Entry,
            Wide::Output,
            Wide::Areas,
        ] {
            other.copy(&narrow, &mut wide);
        }
        let number = self.step_narrow(&mut narrow)?;
        let other = self.step_on_wide(&mut wide)?;
        if number != other || narrow.output != wide.output {
            return Err(format!(
                "both clocks: {number} on 32 bits, {other} on 64, or another output\n"
            ));
        }
        let what = if number == 0 { "taken" } else { "declined" };
        self.counts.add("both clocks, a call with a fault", what);
        Ok(())
    }

    pub fn missing_both(&self) -> Vec<String> {
        let wanted = [
            "carried over, the epoch with its age",
            "carried over, the epoch without",
            "not to be carried over",
        ];
        let mut missing = self.counts.missing("both clocks", &wanted);
        let all = ["0", "1", "2", "3", "4"];
        missing.extend(self.counts.missing("both clocks, action", &all));
        let declined = ["declined"];
        missing.extend(
            self.counts
                .missing("both clocks, a call with a fault", &declined),
        );
        missing
    }
}

/// What both calls have alike.
#[derive(Clone, Copy)]
enum Wide {
    Config,
    Fence,
    Entry,
    Output,
    Areas,
}

impl Wide {
    fn copy(self, from: &Call, to: &mut Call) {
        match self {
            Wide::Config => to.config = from.config.clone(),
            Wide::Fence => to.fence = from.fence.clone(),
            Wide::Entry => to.entry = from.entry,
            Wide::Output => to.output = from.output.clone(),
            Wide::Areas => to.areas = from.areas.clone(),
        }
    }
}

/// A flag out of range at the same place of both states, or of both telemetries.
fn same_byte(random: &mut Random, narrow: &mut Call, wide: &mut Call) {
    if random.chance(2) {
        let at = random.one_of(&[4, 5, 126, 132, 133, 134, 184, 185, 6, 135, 145, 175]);
        narrow.state[at] = 200;
        wide.state[wide_byte(&STATE_INSTANTS, at)] = 200;
    } else {
        let at = random.one_of(&[8, 37, 42, 50, 59, 68, 77, 82, 88, 94, 100]);
        narrow.telemetry[at] = 200;
        wide.telemetry[wide_byte(&TELEMETRY_INSTANTS, at)] = 200;
    }
}

/// The pilot's reading, or one after a shorter gap, lest timers run for 2^31 and can't be carried over.
fn calmed(held: &State, now: u32) -> u32 {
    let last = held.last_now.unwrap_or(now);
    match now.wrapping_sub(last) {
        gap @ 0x10_0000..HALF => last.wrapping_add(gap % 5000),
        _ => now,
    }
}

/// The telemetry at that reading, its stamps as old as they were.
fn put_telemetry(call: &mut Call, t: &Telemetry, now: u32) {
    call.telemetry = vec![0; TELEMETRY_FRAME];
    put_frame(TELEMETRY, t, &mut call.telemetry);
    for (number, at) in TELEMETRY_INSTANTS.into_iter().enumerate() {
        if number == 0 || call.telemetry[at - 1] == 1 {
            let moved = low(&call.telemetry, at).wrapping_add(now.wrapping_sub(t.now_ms));
            call.telemetry[at..at + 4].copy_from_slice(&moved.to_le_bytes());
        }
    }
}

fn told(pair: &Pair, what: &str) -> String {
    let hex = |bytes: &[u8]| -> String { bytes.iter().map(|byte| format!("{byte:02X}")).collect() };
    format!(
        "both clocks: {what}\nconfiguration {}\ntelemetry {}\nstate after {}\nstate of kind 10 after {}\noutput {}\non the 64-bit clock {}\n",
        hex(&pair.narrow.config),
        hex(&pair.wide.telemetry),
        hex(&pair.narrow.state),
        hex(&pair.wide.state),
        hex(&pair.narrow.output),
        hex(&pair.wide.output)
    )
}
