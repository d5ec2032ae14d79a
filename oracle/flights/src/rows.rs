//! Rows for tests/replay: a flight's configuration and fence, and its steps. docs/LISTS.md has the form.

use std::path::Path;

use failsafe_open::{Decision, Telemetry};
use words::{answered, digest, given, line};

const BEGIN: u32 = 0x40;
const STEP: u32 = 0x41;

#[derive(Default)]
pub struct Rows {
    rows: String,
    answers: String,
    pub flights: usize,
    pub refused: usize,
}

impl Rows {
    /// A flight begins: 0, or the refusal's number.
    pub fn begin(&mut self, config: &[u8], fence: &[u8], refusal: u32) {
        let word = |bytes: &[u8]| u32::from_le_bytes([bytes[0], bytes[1], bytes[2], bytes[3]]);
        let mut asked = vec![word(&fence[5..]), word(&fence[9..])];
        asked.extend([config[4] as u32, word(&config[5..]), config[9] as u32]);
        asked.extend(config[10..].chunks_exact(4).map(word));
        asked.push(fence[4] as u32);
        asked.extend(fence[13..].chunks_exact(4).map(word));
        self.add(BEGIN, &asked, &[refusal]);
        self.flights += 1;
        self.refused += (refusal != 0) as usize;
    }

    /// A step, with the state's frame after it.
    pub fn step(&mut self, t: &Telemetry, d: &Decision, state: &[u8]) {
        self.add(STEP, &telemetry_words(t), &step_words(d, state));
    }

    fn add(&mut self, asks: u32, arguments: &[u32], answers: &[u32]) {
        let head = [asks, arguments.len() as u32];
        line(&mut self.rows, head.iter().chain(arguments));
        line(&mut self.answers, answers.iter());
    }

    pub fn write(&self, folder: &Path) -> std::io::Result<()> {
        std::fs::create_dir_all(folder)?;
        std::fs::write(folder.join("rows"), &self.rows)?;
        std::fs::write(folder.join("answers"), &self.answers)
    }
}

/// Bits from the lowest on.
fn bits(flags: &[bool]) -> u32 {
    flags
        .iter()
        .rev()
        .fold(0, |sum, &flag| sum * 2 + flag as u32)
}

fn telemetry_words(t: &Telemetry) -> Vec<u32> {
    let b = &t.battery;
    let sats = t.gps.and_then(|gps| gps.sats);
    let hdop = t.gps.and_then(|gps| gps.hdop);
    let flags = bits(&[
        t.position.is_some(),
        t.gps.is_some(),
        sats.is_some(),
        hdop.is_some(),
        b.voltage_v.is_some(),
        b.percent.is_some(),
        b.remaining_wh.is_some(),
        t.gcs_heartbeat_ms.is_some(),
        t.armed.is_some(),
        t.landed.is_some(),
        t.rc_ok.is_some(),
        t.ekf_ok.is_some(),
        t.armed.is_some_and(|x| x.value),
        t.rc_ok.is_some_and(|x| x.value),
        t.ekf_ok.is_some_and(|x| x.value),
    ]);
    let fix = t.gps.map_or(0, |gps| gps.fix as u32);
    let landed = t.landed.map_or(0, |x| x.value as u32);
    let mut all = vec![
        t.now_ms,
        flags,
        fix + 256 * landed + 65536 * sats.unwrap_or(0) as u32,
    ];
    all.extend(t.position.map_or([0; 7], |s| {
        let [n, e, d] = [s.pos.n, s.pos.e, s.pos.d].map(given);
        let [vn, ve, vd] = [s.vel.n, s.vel.e, s.vel.d].map(given);
        [s.t_ms, n, e, d, vn, ve, vd]
    }));
    all.extend([t.gps.map_or(0, |gps| gps.t_ms), hdop.map_or(0, given)]);
    for reading in [b.voltage_v, b.percent, b.remaining_wh] {
        all.extend(reading.map_or([0, 0], |x| [x.t_ms, given(x.value)]));
    }
    all.push(t.gcs_heartbeat_ms.unwrap_or(0));
    all.extend([
        t.armed.map_or(0, |x| x.t_ms),
        t.landed.map_or(0, |x| x.t_ms),
        t.rc_ok.map_or(0, |x| x.t_ms),
        t.ekf_ok.map_or(0, |x| x.t_ms),
    ]);
    all
}

fn step_words(d: &Decision, state: &[u8]) -> Vec<u32> {
    let e = &d.energy;
    let flags = bits(&[
        d.position_valid,
        d.clock_fault,
        e.remaining_wh.is_some(),
        e.margin_wh.is_some(),
        e.insufficient_for_landing,
        d.fence_dist_m.is_some(),
        d.disarm_eligible,
    ]);
    let numbers = [d.action as u32, d.reason as u32, d.requested as u32, flags];
    let mut all = vec![numbers.iter().rev().fold(0, |sum, n| sum * 256 + n)];
    all.extend([e.rtl_wh, e.land_wh, e.reserve_wh].map(answered));
    all.extend([e.remaining_wh, e.margin_wh, d.fence_dist_m].map(|x| x.map_or(0, answered)));
    all.extend(digest(state));
    for (place, slot) in d.active.reqs.iter().enumerate() {
        if let Some(request) = slot {
            all.push(place as u32 * 65536 + request.reason as u32 * 256 + request.action as u32);
        }
    }
    all
}
