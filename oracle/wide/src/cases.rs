//! Single steps where the two clocks part, with what document 02 says of each.

use failsafe_wide::{
    BatteryInputs, GpsFix, GpsSample, LandedState, PositionSample, Stamped, Telemetry, Vec3,
};
use flights::Setup;
use frames::places::{
    EPOCH, LAST_NOW, RECOVERY, STATE_INSTANTS, TELEMETRY_INSTANTS, narrowed, put_instant,
    wide_byte, wide_place,
};
use frames::{
    DECISION_FRAME, STATE_FRAME, TELEMETRY_WIDE, WIDE_STATE_FRAME, WIDE_TELEMETRY_FRAME, put_frame,
};
use port::{Call, Sides};

use crate::clock::{HALF, WHOLE};

/// Places in a Decision, and the action of GcsLinkLost's slot.
const ACTION: usize = 4;
const LINK: usize = 7 + 3 * 4;
const CLOCK_FAULT: usize = 65;
const POSITION_VALID: usize = 64;

/// Fresh and healthy, 40 m above home.
fn healthy(now: u64) -> Telemetry {
    fn at<T>(now: u64, value: T) -> Option<Stamped<T>> {
        Some(Stamped { t_ms: now, value })
    }
    let still = Vec3 {
        n: 0.0,
        e: 0.0,
        d: 0.0,
    };
    Telemetry {
        now_ms: now,
        position: Some(PositionSample {
            t_ms: now,
            pos: Vec3 { d: -40.0, ..still },
            vel: still,
        }),
        gps: Some(GpsSample {
            t_ms: now,
            fix: GpsFix::Fix3D,
            sats: Some(14),
            hdop: Some(0.9),
        }),
        battery: BatteryInputs {
            voltage_v: at(now, 16.0),
            percent: at(now, 90.0),
            remaining_wh: at(now, 36.0),
        },
        gcs_heartbeat_ms: Some(now),
        armed: at(now, true),
        landed: at(now, LandedState::InAir),
        rc_ok: at(now, true),
        ekf_ok: at(now, true),
    }
}

struct Case<'a> {
    sides: &'a mut Sides,
    call: Call,
}

impl<'a> Case<'a> {
    fn new(sides: &'a mut Sides, setup: &Setup) -> Result<Self, String> {
        let mut state = vec![0; WIDE_STATE_FRAME];
        sides.fresh_wide(&mut state)?;
        let call = Call {
            config: setup.config.to_vec(),
            fence: setup.fence.clone(),
            state,
            telemetry: vec![0; WIDE_TELEMETRY_FRAME],
            output: vec![0; DECISION_FRAME],
            ..Call::default()
        };
        Ok(Case { sides, call })
    }

    fn declined(&mut self, what: &str) -> Result<(), String> {
        match self.sides.step_wide(&mut self.call)? {
            4 => Ok(()),
            number => Err(format!("{what}: {number}, where 4 is due\n")),
        }
    }

    /// Steps, and asks for a byte of the Decision.
    fn step(&mut self, t: &Telemetry, what: &str, at: usize, wanted: u8) -> Result<(), String> {
        put_frame(TELEMETRY_WIDE, t, &mut self.call.telemetry);
        let number = self.sides.step_wide(&mut self.call)?;
        let byte = self.call.output[at];
        if number == 0 && byte == wanted {
            return Ok(());
        }
        Err(format!(
            "{what}: number {number}, byte {at} is {byte}, where {wanted} is due\n"
        ))
    }
}

/// An absent heartbeat counts as 4,294,967,295, which is not above that limit; an age of 2^32 is.
fn heartbeat(sides: &mut Sides, now: u64) -> Result<(), String> {
    let mut setup = Setup::defaults();
    setup.cfg.gcs_hold_ms = u32::MAX - 1;
    setup.cfg.gcs_rtl_ms = u32::MAX;
    let setup = Setup::with(&setup.cfg);
    let (warn, hold, home) = (1, 2, 3);
    for (what, stamp, action) in [
        ("no heartbeat", None, hold),
        ("a heartbeat ahead", Some(now + 1), hold),
        ("a heartbeat far ahead", Some(u64::MAX), hold),
        ("an age of 2^32 - 2", Some(now + 2 - WHOLE), warn),
        ("an age of 2^32 - 1", Some(now + 1 - WHOLE), hold),
        ("an age of 2^32", Some(now - WHOLE), home),
        ("an age of 2^32 + 1500", Some(now - WHOLE - 1500), home),
        ("the age of 0", Some(0), home),
    ] {
        let mut case = Case::new(sides, &setup)?;
        let t = Telemetry {
            gcs_heartbeat_ms: stamp,
            ..healthy(now)
        };
        case.step(&t, what, LINK + 2, action)?;
    }
    Ok(())
}

/// A fault is a reading below the last sound one, and nothing else is.
fn faults(sides: &mut Sides, last: u64) -> Result<(), String> {
    let setup = Setup::defaults();
    for (now, fault) in [
        (last, 0),
        (last + 1, 0),
        (last + HALF - 1, 0),
        (last + HALF, 0),
        (last + WHOLE - 1, 0),
        (last + WHOLE, 0),
        (u64::MAX, 0),
        (last - 1, 1),
        (last - HALF, 1),
        (last - HALF - 1, 1),
        (last - WHOLE, 1),
        (0, 1),
    ] {
        let mut case = Case::new(sides, &setup)?;
        case.step(&healthy(last), "the first reading", CLOCK_FAULT, 0)?;
        case.step(&healthy(now), "a reading", CLOCK_FAULT, fault)?;
        // The last sound reading stays on a fault.
        let at = wide_place(&STATE_INSTANTS, LAST_NOW);
        let sound = if fault == 1 { last } else { now };
        if case.call.state[at..at + 8] != sound.to_le_bytes() {
            return Err(format!("last_now after {last} and {now}\n"));
        }
    }
    Ok(())
}

/// A quiet stretch ends at recovery_hold_ms and stays ended, however long it is.
fn quiet(sides: &mut Sides, since: u64) -> Result<(), String> {
    let setup = Setup::defaults();
    let hold = u64::from(setup.cfg.recovery_hold_ms);
    let (nominal, land) = (0, 4);
    for (gap, action) in [
        (hold - 1, land),
        (hold, nominal),
        (HALF - 1, nominal),
        (HALF, nominal),
        (HALF + 1, nominal),
        (WHOLE, nominal),
        (WHOLE + hold - 1, nominal),
        (9 * WHOLE, nominal),
    ] {
        let mut case = Case::new(sides, &setup)?;
        case.step(&healthy(since), "the first reading", ACTION, nominal)?;
        let state = &mut case.call.state;
        state[wide_byte(&STATE_INSTANTS, 133)] = land;
        let at = wide_place(&STATE_INSTANTS, RECOVERY);
        state[at - 1] = 1;
        put_instant(state, at, since);
        case.step(&healthy(since + gap), "a quiet stretch", ACTION, action)?;
    }
    Ok(())
}

/// A reading is fresh up to its limit, also where that is 4,294,967,295, and not ahead.
fn freshness(sides: &mut Sides, now: u64) -> Result<(), String> {
    let mut setup = Setup::defaults();
    setup.cfg.pos_fresh_ms = u32::MAX;
    let setup = Setup::with(&setup.cfg);
    for (stamp, valid) in [
        (now, 1),
        (now - HALF, 1),
        (now - (WHOLE - 1), 1),
        (now - WHOLE, 0),
        (now - WHOLE - 100, 0),
        (0, 0),
        (now + 1, 0),
        (u64::MAX, 0),
    ] {
        let mut t = healthy(now);
        if let Some(sample) = &mut t.position {
            sample.t_ms = stamp;
        }
        let mut case = Case::new(sides, &setup)?;
        case.step(&t, "a position", POSITION_VALID, valid)?;
    }
    Ok(())
}

/// Every byte of every absent instant is zero, in the state and in the telemetry; else it is 4.
fn absent(sides: &mut Sides) -> Result<(), String> {
    let mut case = Case::new(sides, &Setup::defaults())?;
    case.call.telemetry[..4].copy_from_slice(&[148, 0, 9, 0]);
    let sound = case.call.clone();
    let telemetry = (1..TELEMETRY_INSTANTS.len()).map(|k| wide_place(&TELEMETRY_INSTANTS, k));
    let state = (0..EPOCH).map(|k| wide_place(&STATE_INSTANTS, k));
    let bytes = |at: usize| at..at + 8;
    for at in telemetry.flat_map(bytes) {
        case.call = sound.clone();
        case.call.telemetry[at] = 1;
        case.declined(&format!("byte {at} of an absent reading"))?;
    }
    for at in state.flat_map(bytes) {
        case.call = sound.clone();
        case.call.state[at] = 1;
        case.declined(&format!("byte {at} of an absent instant"))?;
    }
    // The epoch is always there, and so is now_ms.
    case.call = sound;
    put_instant(
        &mut case.call.state,
        wide_place(&STATE_INSTANTS, EPOCH),
        u64::MAX,
    );
    put_instant(&mut case.call.telemetry, TELEMETRY_INSTANTS[0], u64::MAX);
    match case.sides.step_wide(&mut case.call)? {
        0 => Ok(()),
        number => Err(format!("an epoch and a reading of 2^64 - 1: {number}\n")),
    }
}

/// Both clocks from fresh states on the same telemetry; a byte of the last Decision on the 32-bit one and on the 64-bit one.
fn both(
    sides: &mut Sides,
    setup: &Setup,
    steps: &[Telemetry],
    what: &str,
    at: usize,
    wanted: (u8, u8),
) -> Result<(), String> {
    let mut wide = Case::new(sides, setup)?.call;
    let mut narrow = wide.clone();
    narrow.state = vec![0; STATE_FRAME];
    sides.fresh(&mut narrow.state)?;
    for (k, t) in steps.iter().enumerate() {
        put_frame(TELEMETRY_WIDE, t, &mut wide.telemetry);
        narrow.telemetry = narrowed(&wide.telemetry);
        let numbers = (sides.step_wide(&mut narrow)?, sides.step_wide(&mut wide)?);
        if numbers != (0, 0) {
            return Err(format!("{what}: declined with {numbers:?}\n"));
        }
        let last = k + 1 == steps.len();
        let bytes = (narrow.output[at], wide.output[at]);
        if !last && narrow.output != wide.output || last && bytes != wanted {
            return Err(format!(
                "{what}, step {k}: byte {at} is {bytes:?}, where {wanted:?} is due\n"
            ));
        }
    }
    Ok(())
}

/// No gap reaches 2^31 and every stamp is fresh; where a held instant is that old the clocks part all the same: a timer, the start of the
/// recovery, the disarm hold, the stored sample.
fn held_ages(sides: &mut Sides) -> Result<(), String> {
    let defaults = Setup::defaults();
    let far = HALF - 1;
    // InvalidInput ends on the 64-bit clock alone: its clear timer has run for 2^31.
    let mut unfit = healthy(10);
    unfit.battery.percent = Some(Stamped {
        t_ms: 10,
        value: 101.0,
    });
    let steps = [unfit, healthy(11), healthy(12), healthy(12 + far)];
    both(sides, &defaults, &steps, "a timer", 7 + 3 * 2, (1, 0))?;
    // Land stays on the 32-bit clock: the quiet stretch has lasted 2^31.
    let mut lost = healthy(10);
    lost.position = None;
    lost.rc_ok = None;
    let steps = [lost, healthy(11), healthy(12), healthy(12 + far)];
    both(sides, &defaults, &steps, "the recovery", ACTION, (4, 0))?;
    // The gate opens on the 64-bit clock alone.
    let mut cfg = defaults.cfg;
    cfg.battery_critical_set_ms = 0;
    let landed = |now: u64| {
        let mut t = healthy(now);
        t.battery.remaining_wh = None;
        t.battery.percent = Some(Stamped {
            t_ms: now,
            value: 5.0,
        });
        t.landed = Some(Stamped {
            t_ms: now,
            value: LandedState::OnGround,
        });
        t
    };
    let steps = [landed(10), landed(11), landed(11 + far)];
    let setup = Setup::with(&cfg);
    both(sides, &setup, &steps, "the disarm hold", 94, (0, 1))?;
    // A jump is refused on the 32-bit clock, where the stored sample is new again after 2^32.
    let without = |now: u64| Telemetry {
        position: None,
        ..healthy(now)
    };
    let mut jump = healthy(10 + WHOLE);
    if let Some(sample) = &mut jump.position {
        sample.pos.n = 300.0;
    }
    let steps = [healthy(10), without(10 + far), without(10 + 2 * far), jump];
    both(sides, &defaults, &steps, "the stored sample", 89, (0, 1))
}

pub fn run(sides: &mut Sides) -> Result<(), String> {
    absent(sides)?;
    held_ages(sides)?;
    for now in [3 * WHOLE, 3 * WHOLE + HALF + 17, 1 << 60] {
        heartbeat(sides, now)?;
        faults(sides, now)?;
        quiet(sides, now)?;
        freshness(sides, now)?;
    }
    Ok(())
}
