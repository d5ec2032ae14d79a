//! Kinds 5 and 10: the Supervisor without cfg and fence. Its private fields are public in the open copies alone.

use std::sync::OnceLock;

use failsafe_open as rust;

use crate::bytes::{BAD_VALUE, read_frame, record};
use crate::codec::STATE;
use crate::wide::STATE_WIDE;

/// The state of one build of the Rust, whose instants are of this type, as a frame of this kind.
macro_rules! state {
    ($state:ident, $rust:ident, $instant:ident, $kind:ident) => {
        record!($rust::triggers::Timer { since_ms: Option<$instant>, });
        record!($rust::TriggerState {
            battery_critical_latched: bool,
            energy_infeasible_latched: bool,
            gcs_clear_timer: $rust::triggers::Timer,
            rc_clear_timer: $rust::triggers::Timer,
            gps_deg_set: $rust::triggers::Timer,
            gps_deg_clear: $rust::triggers::Timer,
            gps_lost_set: $rust::triggers::Timer,
            gps_lost_clear: $rust::triggers::Timer,
            ekf_set: $rust::triggers::Timer,
            ekf_clear: $rust::triggers::Timer,
            fence_breach_set: $rust::triggers::Timer,
            fence_breach_clear: $rust::triggers::Timer,
            alt_max_set: $rust::triggers::Timer,
            alt_max_clear: $rust::triggers::Timer,
            alt_min_set: $rust::triggers::Timer,
            alt_min_clear: $rust::triggers::Timer,
            stale_bat_clear: $rust::triggers::Timer,
            bat_warn_set: $rust::triggers::Timer,
            bat_warn_clear: $rust::triggers::Timer,
            bat_low_set: $rust::triggers::Timer,
            bat_low_clear: $rust::triggers::Timer,
            bat_crit_set: $rust::triggers::Timer,
            energy_marg_set: $rust::triggers::Timer,
            energy_marg_clear: $rust::triggers::Timer,
            energy_infeas_set: $rust::triggers::Timer,
            invalid_clear: $rust::triggers::Timer,
            invalid_active: bool,
            rc_lost_set: $rust::triggers::Timer,
            gcs_stage: u8,
        });
        record!($rust::ArbiterState {
            prev_output: $rust::Action,
            prev_reason: $rust::Reason,
            recovery_since_ms: Option<$instant>,
        });
        record!($rust::DisarmGate { hold_since_ms: Option<$instant>, });
        record!($rust::GlitchState {
            last_accepted: Option<$rust::PositionSample>,
            reject_streak: u8,
        });

        #[derive(Clone, Debug)]
        pub struct $state {
            pub triggers: $rust::TriggerState,
            pub arbiter: $rust::ArbiterState,
            pub disarm: $rust::DisarmGate,
            pub glitch: $rust::GlitchState,
            pub last_now: Option<$instant>,
            pub epoch_start: $instant,
            pub backwards_streak: u8,
            pub initialized: bool,
        }
        record!($state {
            triggers: $rust::TriggerState,
            arbiter: $rust::ArbiterState,
            disarm: $rust::DisarmGate,
            glitch: $rust::GlitchState,
            last_now: Option<$instant>,
            epoch_start: $instant,
            backwards_streak: u8,
            initialized: bool,
        });

        impl $state {
            /// The state's own rules come with refusal 4.
            #[inline]
            pub fn read_frame(frame: &[u8]) -> Result<Self, u32> {
                let state: $state = read_frame($kind, frame)?;
                if state.fits() {
                    Ok(state)
                } else {
                    Err(BAD_VALUE)
                }
            }

            /// The state's own rules.
            #[inline]
            pub(crate) fn fits(&self) -> bool {
                let stored = self.glitch.last_accepted.is_none_or(|sample| {
                    let (p, v) = (sample.pos, sample.vel);
                    [p.n, p.e, p.d, v.n, v.e, v.d].iter().all(|x| x.is_finite())
                });
                self.triggers.gcs_stage <= 3 && self.backwards_streak <= 2 && stored
            }

            #[inline]
            pub fn with(self, cfg: $rust::Config, fence: $rust::Geofence) -> $rust::Supervisor {
                $rust::Supervisor {
                    cfg,
                    fence,
                    triggers: self.triggers,
                    arbiter: self.arbiter,
                    disarm: self.disarm,
                    glitch: self.glitch,
                    last_now: self.last_now,
                    epoch_start: self.epoch_start,
                    backwards_streak: self.backwards_streak,
                    initialized: self.initialized,
                }
            }

            #[inline]
            pub fn of(supervisor: &$rust::Supervisor) -> Self {
                $state {
                    triggers: supervisor.triggers,
                    arbiter: supervisor.arbiter,
                    disarm: supervisor.disarm,
                    glitch: supervisor.glitch,
                    last_now: supervisor.last_now,
                    epoch_start: supervisor.epoch_start,
                    backwards_streak: supervisor.backwards_streak,
                    initialized: supervisor.initialized,
                }
            }
        }
    };
}
state!(State, failsafe_open, u32, STATE);
state!(WideState, failsafe_wide, u64, STATE_WIDE);

impl State {
    /// What `Supervisor::new` begins with, whatever configuration and fence it is handed. Made once, so that a flight that is timed
    /// does not pay for the rules.
    pub fn fresh() -> Self {
        static FRESH: OnceLock<State> = OnceLock::new();
        let new = || {
            let fence = rust::default_fence().expect("the default fence is accepted");
            let new = rust::Supervisor::new(rust::Config::default(), fence);
            State::of(&new.expect("the defaults are accepted"))
        };
        FRESH.get_or_init(new).clone()
    }
}
