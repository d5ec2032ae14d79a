//! The bodies of kinds 1 to 4, 8, 9 and 255 (areas.rs has 7 and 13). Fields stand in the Rust's declared order.

use crate::bytes::{Field, NO_ROOM, body, numbered, put_frame, record};

pub const CONFIG: u16 = 1;
pub const FENCE: u16 = 2;
pub const FENCE_ONCE_ROUND: u16 = 8;
pub const TELEMETRY: u16 = 3;
pub const DECISION: u16 = 4;
pub const STATE: u16 = 5;
pub const REFUSAL: u16 = 255;

/// `Field` for the types of one build of the Rust, whose instants are of this type.
macro_rules! codec {
    ($rust:ident, $instant:ident) => {
        record!($rust::Config {
            cell_count: u8,
            usable_capacity_wh: f32,
            rc_required: bool,
            pos_fresh_ms: u32,
            gps_fresh_ms: u32,
            status_fresh_ms: u32,
            battery_fresh_ms: u32,
            recovery_hold_ms: u32,
            gcs_warn_ms: u32,
            gcs_hold_ms: u32,
            gcs_rtl_ms: u32,
            gcs_clear_ms: u32,
            gcs_clear_hold_ms: u32,
            rc_lost_set_ms: u32,
            rc_lost_clear_ms: u32,
            gps_degraded_set_ms: u32,
            gps_degraded_clear_ms: u32,
            gps_lost_set_ms: u32,
            gps_lost_clear_ms: u32,
            ekf_unhealthy_set_ms: u32,
            ekf_unhealthy_clear_ms: u32,
            fence_approach_m: f32,
            fence_approach_clear_m: f32,
            fence_breach_set_ms: u32,
            fence_breach_clear_m: f32,
            fence_breach_clear_ms: u32,
            alt_max_clear_m: f32,
            alt_max_set_ms: u32,
            alt_max_clear_hold_ms: u32,
            alt_min_home_radius_m: f32,
            alt_min_set_ms: u32,
            alt_min_clear_m: f32,
            alt_min_clear_ms: u32,
            stale_battery_clear_ms: u32,
            battery_warn_pct: f32,
            battery_warn_clear_pct: f32,
            battery_warn_set_ms: u32,
            battery_warn_clear_ms: u32,
            battery_low_pct: f32,
            battery_low_clear_pct: f32,
            battery_low_set_ms: u32,
            battery_low_clear_ms: u32,
            battery_critical_pct: f32,
            battery_critical_v_per_cell: f32,
            battery_critical_set_ms: u32,
            energy_marginal_wh: f32,
            energy_marginal_clear_wh: f32,
            energy_marginal_set_ms: u32,
            energy_marginal_clear_ms: u32,
            energy_infeasible_set_ms: u32,
            invalid_input_clear_ms: u32,
            disarm_hold_ms: u32,
            v_cruise: f32,
            p_cruise: f32,
            k_wind: f32,
            v_climb: f32,
            p_climb: f32,
            v_desc: f32,
            p_desc: f32,
            h_rtl: f32,
            reserve_wh: f32,
            v_max: f32,
        });
        record!($rust::Vec3 { n: f32, e: f32, d: f32, });
        record!($rust::PositionSample {
            t_ms: $instant,
            pos: $rust::Vec3,
            vel: $rust::Vec3,
        });
        numbered!($rust::GpsFix { 0 None, 1 Fix2D, 2 Fix3D, });
        record!($rust::GpsSample {
            t_ms: $instant,
            fix: $rust::GpsFix,
            sats: Option<u8>,
            hdop: Option<f32>,
        });
        impl<T: Field> Field for $rust::Stamped<T> {
            const WIDTH: usize = $instant::WIDTH + T::WIDTH;
            #[inline]
            fn read(from: &[u8]) -> Option<Self> {
                Some(Self {
                    t_ms: $instant::read(from)?,
                    value: T::read(&from[$instant::WIDTH..])?,
                })
            }
            #[inline]
            fn write(&self, to: &mut [u8]) {
                self.t_ms.write(to);
                self.value.write(&mut to[$instant::WIDTH..]);
            }
        }
        record!($rust::BatteryInputs {
            voltage_v: Option<$rust::Stamped<f32>>,
            percent: Option<$rust::Stamped<f32>>,
            remaining_wh: Option<$rust::Stamped<f32>>,
        });
        numbered!($rust::LandedState {
            0 Undefined, 1 OnGround, 2 InAir, 3 Takeoff, 4 Landing,
        });
        record!($rust::Telemetry {
            now_ms: $instant,
            position: Option<$rust::PositionSample>,
            gps: Option<$rust::GpsSample>,
            battery: $rust::BatteryInputs,
            gcs_heartbeat_ms: Option<$instant>,
            armed: Option<$rust::Stamped<bool>>,
            landed: Option<$rust::Stamped<$rust::LandedState>>,
            rc_ok: Option<$rust::Stamped<bool>>,
            ekf_ok: Option<$rust::Stamped<bool>>,
        });
        numbered!($rust::Action {
            0 Nominal, 1 Warn, 2 Hold, 3 ReturnToLaunch, 4 Land,
        });
        numbered!($rust::Reason {
            0 None, 1 ClockFault, 2 InvalidInput, 3 StaleBattery, 4 GcsLinkLost, 5 RcLost,
            6 GpsDegraded, 7 GpsLost, 8 EkfUnhealthy, 9 PositionInvalid, 10 FenceApproach,
            11 FenceBreach, 12 AltitudeMax, 13 AltitudeMin, 14 BatteryWarn, 15 BatteryLow,
            16 BatteryCritical, 17 EnergyRtlMarginal, 18 EnergyRtlInfeasible,
        });
        record!($rust::Request {
            reason: $rust::Reason,
            action: $rust::Action,
        });
        record!($rust::ActiveSet { reqs: [Option<$rust::Request>; 19], });
        record!($rust::EnergyEstimate {
            rtl_wh: f32,
            land_wh: f32,
            reserve_wh: f32,
            remaining_wh: Option<f32>,
            margin_wh: Option<f32>,
            insufficient_for_landing: bool,
        });
        record!($rust::Decision {
            action: $rust::Action,
            reason: $rust::Reason,
            requested: $rust::Action,
            active: $rust::ActiveSet,
            position_valid: bool,
            clock_fault: bool,
            energy: $rust::EnergyEstimate,
            fence_dist_m: Option<f32>,
            disarm_eligible: bool,
        });
    };
}
codec!(failsafe_core, u32);
codec!(failsafe_open, u32);
codec!(failsafe_wide, u64);

/// Corners as sent. Where the count is above 16, only the first sixteen are kept: the count decides.
#[derive(Clone, Copy, Debug, PartialEq)]
pub struct Corners {
    pub count: usize,
    pub at: [(f32, f32); 16],
}

/// The content of a kind 2 or kind 8 frame, before the fence rules.
#[derive(Clone, Copy, Debug, PartialEq)]
pub struct FenceSent {
    pub once_round: bool,
    pub min_alt_m: f32,
    pub max_alt_m: f32,
    pub corners: Corners,
}

#[inline]
fn real(bytes: &[u8], at: usize) -> f32 {
    f32::from_le_bytes([bytes[at], bytes[at + 1], bytes[at + 2], bytes[at + 3]])
}

fn fence_kind(once_round: bool) -> u16 {
    if once_round { FENCE_ONCE_ROUND } else { FENCE }
}

impl Corners {
    #[inline]
    pub fn read(count: u8, bytes: &[u8]) -> Self {
        let mut at = [(0.0, 0.0); 16];
        for (corner, bytes) in at.iter_mut().zip(bytes.chunks_exact(8)) {
            *corner = (real(bytes, 0), real(bytes, 4));
        }
        Corners {
            count: count as usize,
            at,
        }
    }

    /// How often the north steps of the sides change their sign, going round. Document 02's rule for kind 8,
    /// which the Rust has not.
    fn sign_changes(&self) -> usize {
        let north = |i: usize| self.at[i % self.count].0;
        let signs = (0..self.count)
            .filter_map(|i| north(i + 1).partial_cmp(&north(i)))
            .filter(|sign| sign.is_ne());
        let next = signs.clone().skip(1).chain(signs.clone().next());
        signs.zip(next).filter(|(a, b)| a != b).count()
    }
}

#[inline]
pub fn read_fence(frame: &[u8]) -> Result<FenceSent, u32> {
    let once_round = frame.get(2..4) == Some(&FENCE_ONCE_ROUND.to_le_bytes());
    let body = body(frame, fence_kind(once_round), |body| {
        body.first()
            .is_some_and(|&count| body.len() == 9 + 8 * count as usize)
    })?;
    Ok(FenceSent {
        once_round,
        min_alt_m: real(body, 1),
        max_alt_m: real(body, 5),
        corners: Corners::read(body[0], &body[9..]),
    })
}

/// A frame with at most 16 corners.
pub fn write_fence(fence: &FenceSent, to: &mut [u8]) -> Result<usize, u32> {
    let count = fence.corners.count;
    let length = 13 + 8 * count;
    if to.len() < length {
        return Err(NO_ROOM);
    }
    ((length - 2) as u16).write(to);
    fence_kind(fence.once_round).write(&mut to[2..]);
    to[4] = count as u8;
    fence.min_alt_m.write(&mut to[5..]);
    fence.max_alt_m.write(&mut to[9..]);
    for (i, corner) in fence.corners.at[..count].iter().enumerate() {
        corner.0.write(&mut to[13 + 8 * i..]);
        corner.1.write(&mut to[17 + 8 * i..]);
    }
    Ok(length)
}

/// 10 to 18 of one build of the Rust: a polygon's rules, with `once_round` also 33, after 16 and before 17; and a fence's.
macro_rules! fence_rules {
    ($polygon:ident, $fence:ident, $error:ident, $rust:ident) => {
        fn $error(error: $rust::FenceError) -> u32 {
            use $rust::FenceError::*;
            match error {
                TooFewVertices => 10,
                TooManyVertices => 11,
                NonFinite => 12,
                OutOfEnvelope => 13,
                DuplicateVertex => 14,
                CollinearEdge => 15,
                NotConvex => 16,
                AreaTooSmall => 17,
                BadAltitudes => 18,
            }
        }

        #[inline]
        pub fn $polygon(corners: &Corners, once_round: bool) -> Result<$rust::ConvexPolygon, u32> {
            use $rust::FenceError::{AreaTooSmall, TooManyVertices};
            let mut points = [$rust::Point2 { n: 0.0, e: 0.0 }; 16];
            for (point, corner) in points.iter_mut().zip(&corners.at) {
                *point = $rust::Point2 {
                    n: corner.0,
                    e: corner.1,
                };
            }
            let made = match points.get(..corners.count) {
                Some(points) => $rust::ConvexPolygon::new(points),
                None => Err(TooManyVertices),
            };
            let turns_fit = matches!(made, Ok(_) | Err(AreaTooSmall));
            if once_round && turns_fit && corners.sign_changes() > 2 {
                return Err(33);
            }
            made.map_err($error)
        }

        #[inline]
        pub fn $fence(sent: &FenceSent) -> Result<$rust::Geofence, u32> {
            let poly = $polygon(&sent.corners, sent.once_round)?;
            $rust::Geofence::new(poly, sent.min_alt_m, sent.max_alt_m).map_err($error)
        }
    };
}
fence_rules!(polygon_core, fence_core, error_core, failsafe_core);
fence_rules!(polygon_open, fence_open, error_open, failsafe_open);

/// A kind 255 frame.
pub fn put_refusal(number: u32, to: &mut [u8]) {
    put_frame(REFUSAL, &(number as u16), to);
}
