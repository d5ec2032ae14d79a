//! Document 02's L10 in plain Rust, over the Rust's own types and its own `validate_telemetry`.

use failsafe_open::validate::validate_telemetry;
use failsafe_open::{BatteryInputs, Config, Geofence, Stamped, Telemetry};
use frames::{
    CONFIG, NO_ROOM, TELEMETRY, TELEMETRY_FRAME, config_error_open, fence_open, put_frame,
    read_fence, read_frame,
};

/// A rule with a fault in it, to try the driver itself; 0 is the rule.
pub type Fault = u32;
pub const FAULTS: u32 = 8;

/// An age, absent from 2^31 up.
fn age(now: u32, then: u32) -> Option<u32> {
    Some(now.wrapping_sub(then)).filter(|age| *age < 1 << 31)
}

/// One radio's reading: as sent, and whether it is left by `validate_telemetry`.
struct Side<T> {
    sent: Option<T>,
    kept: bool,
}

fn pick<T: Copy>(
    fault: Fault,
    now: u32,
    stamp: impl Fn(T) -> u32,
    a: Side<T>,
    b: Side<T>,
) -> Option<T> {
    let (Some(x), Some(y)) = (a.sent, b.sent) else {
        return if fault == 1 {
            a.sent
        } else {
            a.sent.or(b.sent)
        };
    };
    if a.kept != b.kept && fault != 2 {
        return if a.kept { a.sent } else { b.sent };
    }
    let second = match (age(now, stamp(x)), age(now, stamp(y))) {
        (Some(x), Some(y)) if fault == 3 => y > x,
        (Some(x), Some(y)) if fault == 4 => y <= x,
        (Some(x), Some(y)) => y < x,
        (None, Some(_)) => fault != 5,
        (Some(_), None) => fault == 6,
        (None, None) => fault == 7,
    };
    if second { b.sent } else { a.sent }
}

fn at<T>(stamped: Stamped<T>) -> u32 {
    stamped.t_ms
}

pub fn merged(
    fault: Fault,
    cfg: &Config,
    fence: &Geofence,
    a: &Telemetry,
    b: &Telemetry,
) -> Telemetry {
    let now = a.now_ms;
    let left_a = validate_telemetry(a, cfg, fence).telemetry;
    let left_b = validate_telemetry(b, cfg, fence).telemetry;
    macro_rules! reading {
        ($($field:ident).+, $stamp:expr) => {
            pick(
                fault,
                now,
                $stamp,
                Side { sent: a.$($field).+, kept: left_a.$($field).+.is_some() },
                Side { sent: b.$($field).+, kept: left_b.$($field).+.is_some() },
            )
        };
    }
    Telemetry {
        now_ms: now,
        position: reading!(position, |p| p.t_ms),
        gps: reading!(gps, |g| g.t_ms),
        battery: BatteryInputs {
            voltage_v: reading!(battery.voltage_v, at),
            percent: reading!(battery.percent, at),
            remaining_wh: reading!(battery.remaining_wh, at),
        },
        gcs_heartbeat_ms: reading!(gcs_heartbeat_ms, |h| h),
        armed: reading!(armed, at),
        landed: reading!(landed, at),
        rc_ok: reading!(rc_ok, at),
        ekf_ok: reading!(ekf_ok, at),
    }
}

/// 0 with the frame in the first 106 bytes of output, or the refusal's number with nothing written.
pub fn merge(
    fault: Fault,
    config: &[u8],
    fence: &[u8],
    first: &[u8],
    second: &[u8],
    output: &mut [u8],
) -> Result<(), u32> {
    let cfg: Config = read_frame(CONFIG, config)?;
    let fence = fence_open(&read_fence(fence)?)?;
    failsafe_open::validate_config(&cfg, &fence).map_err(config_error_open)?;
    let (a, b): (Telemetry, Telemetry) = if fault == 8 {
        let b = read_frame(TELEMETRY, second)?;
        (read_frame(TELEMETRY, first)?, b)
    } else {
        (
            read_frame(TELEMETRY, first)?,
            read_frame(TELEMETRY, second)?,
        )
    };
    if a.now_ms != b.now_ms {
        return Err(38);
    }
    if output.len() < TELEMETRY_FRAME {
        return Err(NO_ROOM);
    }
    put_frame(TELEMETRY, &merged(fault, &cfg, &fence, &a, &b), output);
    Ok(())
}
