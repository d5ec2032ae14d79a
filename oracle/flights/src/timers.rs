//! Every hold of the Supervisor: since when it runs, and its limit.

use failsafe_open::Config;
use frames::State;

#[derive(Clone, Copy)]
pub struct Hold {
    pub name: &'static str,
    pub since_ms: Option<u32>,
    pub limit_ms: u32,
}

pub fn holds(state: &State, c: &Config) -> [Hold; 27] {
    let t = &state.triggers;
    let hold = |name, timer: failsafe_open::triggers::Timer, limit_ms| Hold {
        name,
        since_ms: timer.since_ms,
        limit_ms,
    };
    [
        hold("gcs_clear_timer", t.gcs_clear_timer, c.gcs_clear_hold_ms),
        hold("rc_clear_timer", t.rc_clear_timer, c.rc_lost_clear_ms),
        hold("rc_lost_set", t.rc_lost_set, c.rc_lost_set_ms),
        hold("gps_deg_set", t.gps_deg_set, c.gps_degraded_set_ms),
        hold("gps_deg_clear", t.gps_deg_clear, c.gps_degraded_clear_ms),
        hold("gps_lost_set", t.gps_lost_set, c.gps_lost_set_ms),
        hold("gps_lost_clear", t.gps_lost_clear, c.gps_lost_clear_ms),
        hold("ekf_set", t.ekf_set, c.ekf_unhealthy_set_ms),
        hold("ekf_clear", t.ekf_clear, c.ekf_unhealthy_clear_ms),
        hold(
            "fence_breach_set",
            t.fence_breach_set,
            c.fence_breach_set_ms,
        ),
        hold(
            "fence_breach_clear",
            t.fence_breach_clear,
            c.fence_breach_clear_ms,
        ),
        hold("alt_max_set", t.alt_max_set, c.alt_max_set_ms),
        hold("alt_max_clear", t.alt_max_clear, c.alt_max_clear_hold_ms),
        hold("alt_min_set", t.alt_min_set, c.alt_min_set_ms),
        hold("alt_min_clear", t.alt_min_clear, c.alt_min_clear_ms),
        hold(
            "stale_bat_clear",
            t.stale_bat_clear,
            c.stale_battery_clear_ms,
        ),
        hold("bat_warn_set", t.bat_warn_set, c.battery_warn_set_ms),
        hold("bat_warn_clear", t.bat_warn_clear, c.battery_warn_clear_ms),
        hold("bat_low_set", t.bat_low_set, c.battery_low_set_ms),
        hold("bat_low_clear", t.bat_low_clear, c.battery_low_clear_ms),
        hold("bat_crit_set", t.bat_crit_set, c.battery_critical_set_ms),
        hold(
            "energy_marg_set",
            t.energy_marg_set,
            c.energy_marginal_set_ms,
        ),
        hold(
            "energy_marg_clear",
            t.energy_marg_clear,
            c.energy_marginal_clear_ms,
        ),
        hold(
            "energy_infeas_set",
            t.energy_infeas_set,
            c.energy_infeasible_set_ms,
        ),
        hold("invalid_clear", t.invalid_clear, c.invalid_input_clear_ms),
        Hold {
            name: "recovery",
            since_ms: state.arbiter.recovery_since_ms,
            limit_ms: c.recovery_hold_ms,
        },
        Hold {
            name: "disarm",
            since_ms: state.disarm.hold_since_ms,
            limit_ms: c.disarm_hold_ms,
        },
    ]
}
