/* The flight supervisor's entries, for an autopilot's host in C.
 *
 * Link target/staticlib/libfailsafe.a (made by `tools/make.sh failsafe`). The library keeps nothing between
 * calls, allocates nothing and calls nothing back: all state is in the buffer that the host keeps.
 * examples/host.c is a host that flies a short flight. docs/RULES.md has the rules in the order of a step.
 *
 * At boot
 *
 *   1. failsafe_check(config, fence): 0, or do not fly. FAILSAFE_DEFAULT_CONFIG and FAILSAFE_DEFAULT_FENCE are ready frames.
 *   2. failsafe_fresh(state), once; failsafe_fresh_raised(state) where the configuration is of kind 11; failsafe_fresh_wide(state) for
 *      a clock that does not wrap.
 *   3. failsafe_step(..) at the host's own rate, also on the ground, with `armed` false until the motors are armed. Such a step
 *      is a confirmed disarm: it answers Nominal, and timers, latches and the action shown start anew.
 *   4. Arm once position, ekf_ok, heartbeat, rc_ok and a battery reading have fresh stamps.
 *
 * A first step with nothing read yet answers Land for PositionInvalid: link, controller and battery are missing, which asks
 * for ReturnToLaunch, and without a position that becomes Land. From there the action steps down only after recovery_hold_ms.
 * Nothing in the library tells the ground from the air but the readings, so a host that is not armed says so.
 * A state that is lost in flight can't be made again: a fresh one has forgotten latches, timers and the action shown.
 *
 * Units: every time is milliseconds, every length metres. Position is metres from home, north, east, down (down is positive
 * below home; altitude is -down). Home is (0, 0, 0), and the corners of fence and areas are metres north and east of the same
 * point: a wrong origin would move the fence.
 *
 * What the library takes for granted
 *
 *   - x86-64, little-endian, and the C calling convention of Linux.
 *   - Floats are rounded to nearest, and numbers too small to be normal are kept: no flush-to-zero, no denormals-are-zero (MXCSR
 *     as a process starts with it). In another mode the bytes of an answer may differ.
 *   - From outside it needs memcpy and memset, and nothing else.
 *   - No two buffers of a call overlap, and nothing else writes to them during the call: the library can't see either. A pointer
 *     may be null where its length is 0.
 *   - It is reentrant: there are no globals, and threads may call it at once on buffers of their own.
 *   - Each state belongs to one flight: its calls come one after the other, with one configuration. Fence and areas may change
 *     between steps.
 *
 * Stack of a call on x86-64, the most that tests/stack measures on the sample flight beside eight areas, rounded up to a multiple
 * of 64 (a build for another processor differs):
 *   failsafe_step        4032 bytes
 *   failsafe_step_side   4032 bytes
 *   failsafe_step_areas  4032 bytes
 *   any of these on a state of kind 10 6016 bytes
 *   failsafe_add_area    960 bytes
 *   failsafe_remove_area 960 bytes
 *
 * Frames
 *
 * Every buffer is a pointer and a length. A frame is a two-byte length (of kind and body), a two-byte kind,
 * and the body; all little-endian. Body fields stand in the Rust's declared order.
 *
 *   buffer         kind   bytes               content
 *   config         1, 11  246                 Config; beside a kind 11 eight of the requests stay until they are cleared
 *   fence          2, 8   13 + 8 * corners    corner count, min altitude, max altitude, corners north, east
 *   telemetry      3      106                 Telemetry
 *                  9      150                 the same beside a state of kind 10, each instant in eight bytes
 *   output         4      95 or more          Decision
 *                  6      96 or more          Decision with the side of the fence: failsafe_step_side, failsafe_step_areas
 *   state          5      186                 the supervisor's state
 *                  10     306                 the same with each instant in eight bytes: a clock that does not wrap
 *                  12     194                 the same beside a configuration of kind 11, with eight bools more: what is raised
 *   area           7      6 + 8 * corners     a keep-out area: number, corner count, corners north, east
 *   areas          13     5 to 1045, or none  count, then the bodies (number, corner count, corners) of up to eight areas, in
 *                                             order of number
 *
 * A bool is a byte 0 or 1, an enum a byte in declared order from 0, an Option a byte 0 or 1 and then its
 * value, all zero bytes where absent. Floats are IEEE 754 binary32; written NaNs are 7FC00000 (hexadecimal). A
 * stamp t_ms is a clock reading of 32 bits, as now_ms; the clock may wrap. In kinds 9 and 10 an instant has 64 bits, and that clock does
 * not wrap: an age is absent only where the stamp is later than now_ms, and a clock fault is a reading below the last sound one.
 * Durations of the configuration have 32 bits beside either clock.
 *
 * The places of all fields are below, as byte offsets into the frame. The state's bytes are the library's own: a host keeps
 * them and hands them back.
 *
 * Refusals
 *
 * Every entry answers 0 on success. Any other answer is a refusal, and then no byte of state or output has
 * changed:
 *
 *   1         a frame is short: under 2 bytes, or fewer than 2 + length
 *   2         not the kind due: beside a configuration of kind 1 a state of kind 5 with telemetry of kind 3, or of kind 10 with kind 9;
 *             beside one of kind 11 a state of kind 12 with telemetry of kind 3
 *   3         a length under 2, or not the kind's, or bytes left over
 *   4         a flag or enum byte out of range; an absent value not zero; in state also a link stage above 3,
 *             a row of faults above 2, a number of the stored position or velocity that is not finite
 *   5         output under 95 bytes (failsafe_step_side, failsafe_step_areas: under 96; failsafe_fresh: state under 186;
 *             failsafe_fresh_raised: under 194; failsafe_fresh_wide, and the new state of failsafe_widen: under 306;
 *             failsafe_add_area, failsafe_remove_area: output under the frame to be written)
 *   10 to 18  the fence: too few corners, too many, not finite, out of envelope, duplicate, collinear, not
 *             convex, area too small, bad altitudes
 *   33        the fence, of kind 8 alone, after 16 and before 17: going round the sides, the sign of the north
 *             step changes more than twice, as of a star (kind 2 takes one); an area, beside either kind
 *   20 to 28  the configuration: home outside the fence, return altitude outside it, not finite, speed not
 *             positive, negative power, cell count, capacity, order of thresholds, duration out of range
 *   30        a ninth area
 *   31        an area's number is 0, is held already, is not above the one before it in a frame of kind 13, or is to be
 *             removed and is not held
 *   32        home, (0, 0), is inside an area; on its side it is not
 *   34        the state to be carried over has no last_now, or T's lower 32 bits are not last_now (failsafe_widen)
 *   35        a held instant of it other than the epoch has no age at last_now, or one above T (failsafe_widen)
 *   36, 37    a number outside its limits, a speed of 0 (failsafe_whole_energy)
 *   38        the two radios' now_ms differ (failsafe_merge)
 *   39        the fence in its one form would itself be declined (failsafe_spell_fence)
 *
 * The first refusal in this order is answered: configuration frame, fence frame, fence rules, configuration
 * rules, areas frame, areas one by one, state, telemetry, output; within a frame 1, a length under 2, 2, 3, 4. Of an area 10 to
 * 16, 33, 17, then 31, 30, 32. A frame of kind 13 whose counts don't fit its length is 3 before any of its areas is looked at.
 */
#ifndef FAILSAFE_H
#define FAILSAFE_H

#include <stddef.h>
#include <stdint.h>

#ifdef __cplusplus
extern "C" {
#endif

/* Version of this header and the library of the same commit: the first number grows where a frame, a number or an entry's answer changes,
 * the second where something is added. No entry answers it. */
#define FAILSAFE_VERSION_MAJOR 1
#define FAILSAFE_VERSION_MINOR 2
#define FAILSAFE_VERSION "1.2"

/* Bytes of frames. */
#define FAILSAFE_CONFIG_BYTES 246
#define FAILSAFE_FENCE_BYTES(corners) (13 + 8 * (corners))
#define FAILSAFE_TELEMETRY_BYTES 106
#define FAILSAFE_WIDE_TELEMETRY_BYTES 150 /* beside a state of kind 10 */
#define FAILSAFE_DECISION_BYTES 95
#define FAILSAFE_SIDE_BYTES 96
#define FAILSAFE_STATE_BYTES 186
#define FAILSAFE_WIDE_STATE_BYTES 306   /* with instants of 64 bits */
#define FAILSAFE_RAISED_STATE_BYTES 194 /* beside a configuration of kind 11 */
#define FAILSAFE_AREA_BYTES(corners) (6 + 8 * (corners))
#define FAILSAFE_AREAS_MOST 1045 /* eight areas of 16 corners */

/* Kinds of frames. The last is what `decide` writes for a refusal. */
enum failsafe_kind {
    FAILSAFE_KIND_CONFIG = 1,
    FAILSAFE_KIND_FENCE = 2,
    FAILSAFE_KIND_TELEMETRY = 3,
    FAILSAFE_KIND_DECISION = 4,
    FAILSAFE_KIND_STATE = 5,
    FAILSAFE_KIND_SIDE = 6,
    FAILSAFE_KIND_AREA = 7,
    FAILSAFE_KIND_FENCE_ONCE_ROUND = 8,
    FAILSAFE_KIND_WIDE_TELEMETRY = 9,
    FAILSAFE_KIND_WIDE_STATE = 10,
    FAILSAFE_KIND_CONFIG_KEEPING = 11, /* Config: raised requests are kept until they are cleared */
    FAILSAFE_KIND_RAISED_STATE = 12,
    FAILSAFE_KIND_AREAS = 13,
    FAILSAFE_KIND_REFUSAL = 255
};

/* Actions, from the mildest. */
enum failsafe_action {
    FAILSAFE_ACTION_NOMINAL = 0,
    FAILSAFE_ACTION_WARN = 1,
    FAILSAFE_ACTION_HOLD = 2,
    FAILSAFE_ACTION_RETURN_TO_LAUNCH = 3,
    FAILSAFE_ACTION_LAND = 4
};

/* Reasons; a Decision has a slot for each. */
enum failsafe_reason {
    FAILSAFE_REASON_NONE = 0,
    FAILSAFE_REASON_CLOCK_FAULT = 1,
    FAILSAFE_REASON_INVALID_INPUT = 2,
    FAILSAFE_REASON_STALE_BATTERY = 3,
    FAILSAFE_REASON_GCS_LINK_LOST = 4,
    FAILSAFE_REASON_RC_LOST = 5,
    FAILSAFE_REASON_GPS_DEGRADED = 6,
    FAILSAFE_REASON_GPS_LOST = 7,
    FAILSAFE_REASON_EKF_UNHEALTHY = 8,
    FAILSAFE_REASON_POSITION_INVALID = 9,
    FAILSAFE_REASON_FENCE_APPROACH = 10,
    FAILSAFE_REASON_FENCE_BREACH = 11,
    FAILSAFE_REASON_ALTITUDE_MAX = 12,
    FAILSAFE_REASON_ALTITUDE_MIN = 13,
    FAILSAFE_REASON_BATTERY_WARN = 14,
    FAILSAFE_REASON_BATTERY_LOW = 15,
    FAILSAFE_REASON_BATTERY_CRITICAL = 16,
    FAILSAFE_REASON_ENERGY_RTL_MARGINAL = 17,
    FAILSAFE_REASON_ENERGY_RTL_INFEASIBLE = 18
};

/* What a GPS reading rests on. */
enum failsafe_fix {
    FAILSAFE_FIX_NONE = 0,
    FAILSAFE_FIX_FIX2D = 1,
    FAILSAFE_FIX_FIX3D = 2
};

/* Landed or not, as the autopilot tells it. */
enum failsafe_landed {
    FAILSAFE_LANDED_UNDEFINED = 0,
    FAILSAFE_LANDED_ON_GROUND = 1,
    FAILSAFE_LANDED_IN_AIR = 2,
    FAILSAFE_LANDED_TAKEOFF = 3,
    FAILSAFE_LANDED_LANDING = 4
};

/* What an entry answers: 0, or a refusal. */
enum failsafe_refusal {
    FAILSAFE_REFUSAL_NONE = 0,
    FAILSAFE_REFUSAL_SHORT = 1,
    FAILSAFE_REFUSAL_OTHER_KIND = 2,
    FAILSAFE_REFUSAL_LENGTH = 3,
    FAILSAFE_REFUSAL_VALUE = 4,
    FAILSAFE_REFUSAL_NO_ROOM = 5,
    FAILSAFE_REFUSAL_TOO_FEW_VERTICES = 10,
    FAILSAFE_REFUSAL_TOO_MANY_VERTICES = 11,
    FAILSAFE_REFUSAL_NON_FINITE = 12,
    FAILSAFE_REFUSAL_OUT_OF_ENVELOPE = 13,
    FAILSAFE_REFUSAL_DUPLICATE_VERTEX = 14,
    FAILSAFE_REFUSAL_COLLINEAR_EDGE = 15,
    FAILSAFE_REFUSAL_NOT_CONVEX = 16,
    FAILSAFE_REFUSAL_AREA_TOO_SMALL = 17,
    FAILSAFE_REFUSAL_BAD_ALTITUDES = 18,
    FAILSAFE_REFUSAL_HOME_OUTSIDE_FENCE = 20,
    FAILSAFE_REFUSAL_RTL_ALT_OUTSIDE_FENCE = 21,
    FAILSAFE_REFUSAL_NON_FINITE_PARAM = 22,
    FAILSAFE_REFUSAL_NON_POSITIVE_SPEED = 23,
    FAILSAFE_REFUSAL_NEGATIVE_POWER = 24,
    FAILSAFE_REFUSAL_BAD_CELL_COUNT = 25,
    FAILSAFE_REFUSAL_BAD_CAPACITY = 26,
    FAILSAFE_REFUSAL_BAD_THRESHOLD_ORDER = 27,
    FAILSAFE_REFUSAL_DURATION_OUT_OF_RANGE = 28,
    FAILSAFE_REFUSAL_NINTH_AREA = 30,
    FAILSAFE_REFUSAL_AREA_NUMBER = 31,
    FAILSAFE_REFUSAL_HOME_IN_AREA = 32,
    FAILSAFE_REFUSAL_NOT_ONCE_ROUND = 33,
    FAILSAFE_REFUSAL_OTHER_LAST_NOW = 34,
    FAILSAFE_REFUSAL_HELD_AGE = 35,
    FAILSAFE_REFUSAL_OUTSIDE_LIMITS = 36,
    FAILSAFE_REFUSAL_SPEED_OF_ZERO = 37,
    FAILSAFE_REFUSAL_CLOCKS_DIFFER = 38,
    FAILSAFE_REFUSAL_ONE_FORM_DECLINED = 39
};

/* Places of the settings in a configuration's frame, each with its type, its unit and what it is for. A duration has no limits but
 * those told here. An age is compared so that its limit still counts.
 *
 * (*) In a frame of kind 1 it changes no Decision, as long as what its line asks is kept: a request ends at the first step where its own test is
 * false. It moves a timer of the state alone. In one of kind 11 the eight requests of failsafe_fresh_raised stay until their clear time has
 * passed, and RcLost waits for rc_lost_set_ms. A negative clear distance, or energy_marginal_clear_wh below energy_marginal_wh, would end a request early. */
enum failsafe_config_place {
    FAILSAFE_CONFIG_CELL_COUNT = 4,                     /* u8, battery cells in series, 1 to 14 */
    FAILSAFE_CONFIG_USABLE_CAPACITY_WH = 5,             /* f32, Wh, above 0: the energy of a full battery */
    FAILSAFE_CONFIG_RC_REQUIRED = 9,                    /* bool, whether the hand controller (rc_ok) is looked at */
    FAILSAFE_CONFIG_POS_FRESH_MS = 10,                  /* u32, ms: the oldest position that is valid */
    FAILSAFE_CONFIG_GPS_FRESH_MS = 14,                  /* u32, ms: the oldest gps reading that counts */
    FAILSAFE_CONFIG_STATUS_FRESH_MS = 18,               /* u32, ms: the oldest armed, landed, rc_ok or ekf_ok that counts */
    FAILSAFE_CONFIG_BATTERY_FRESH_MS = 22,              /* u32, ms: the oldest voltage_v, percent or remaining_wh that counts */
    FAILSAFE_CONFIG_RECOVERY_HOLD_MS = 26,              /* u32, ms, 1 to 600,000: how long less must be wanted before the action steps down */
    FAILSAFE_CONFIG_GCS_WARN_MS = 30,                   /* u32, ms, 1 to 600,000: GcsLinkLost asks for Warn above this age of the heartbeat */
    FAILSAFE_CONFIG_GCS_HOLD_MS = 34,                   /* u32, ms: for Hold above this age; keep it above gcs_warn_ms */
    FAILSAFE_CONFIG_GCS_RTL_MS = 38,                    /* u32, ms: for ReturnToLaunch above this age; keep it above gcs_hold_ms */
    FAILSAFE_CONFIG_GCS_CLEAR_MS = 42,                  /* u32, ms: the link is good at this age or less; keep it below gcs_warn_ms */
    FAILSAFE_CONFIG_GCS_CLEAR_HOLD_MS = 46,             /* u32, ms: how long it must be good before GcsLinkLost ends */
    FAILSAFE_CONFIG_RC_LOST_SET_MS = 50,                /* u32, ms (*): RcLost asks from the first step without the controller */
    FAILSAFE_CONFIG_RC_LOST_CLEAR_MS = 54,              /* u32, ms (*): and ends at the first step with it */
    FAILSAFE_CONFIG_GPS_DEGRADED_SET_MS = 58,           /* u32, ms: how long gps must be poor before GpsDegraded asks for Warn */
    FAILSAFE_CONFIG_GPS_DEGRADED_CLEAR_MS = 62,         /* u32, ms (*): how long gps must be good again, 10 satellites or more and hdop 2.0 or less */
    FAILSAFE_CONFIG_GPS_LOST_SET_MS = 66,               /* u32, ms: how long without a 3D fix before GpsLost asks for Land */
    FAILSAFE_CONFIG_GPS_LOST_CLEAR_MS = 70,             /* u32, ms (*): how long with a 3D fix again */
    FAILSAFE_CONFIG_EKF_UNHEALTHY_SET_MS = 74,          /* u32, ms: how long without a good ekf_ok before EkfUnhealthy asks for Land */
    FAILSAFE_CONFIG_EKF_UNHEALTHY_CLEAR_MS = 78,        /* u32, ms (*): how long with a good ekf_ok again */
    FAILSAFE_CONFIG_FENCE_APPROACH_M = 82,              /* f32, m: FenceApproach asks for Warn from 0 to under this distance */
    FAILSAFE_CONFIG_FENCE_APPROACH_CLEAR_M = 86,        /* f32, m: the distance at which FenceApproach was to end; no rule reads it */
    FAILSAFE_CONFIG_FENCE_BREACH_SET_MS = 90,           /* u32, ms: how long outside before FenceBreach asks for ReturnToLaunch */
    FAILSAFE_CONFIG_FENCE_BREACH_CLEAR_M = 94,          /* f32, m (*): so far inside counts as back; keep it at 0 or above */
    FAILSAFE_CONFIG_FENCE_BREACH_CLEAR_MS = 98,         /* u32, ms (*): how long so */
    FAILSAFE_CONFIG_ALT_MAX_CLEAR_M = 102,              /* f32, m (*): so far below the upper altitude counts as back; keep it at 0 or above */
    FAILSAFE_CONFIG_ALT_MAX_SET_MS = 106,               /* u32, ms: how long above the fence before AltitudeMax asks for ReturnToLaunch */
    FAILSAFE_CONFIG_ALT_MAX_CLEAR_HOLD_MS = 110,        /* u32, ms (*): how long so */
    FAILSAFE_CONFIG_ALT_MIN_HOME_RADIUS_M = 114,        /* f32, m from home, within which AltitudeMin is silent */
    FAILSAFE_CONFIG_ALT_MIN_SET_MS = 118,               /* u32, ms: how long too low before AltitudeMin asks for Warn */
    FAILSAFE_CONFIG_ALT_MIN_CLEAR_M = 122,              /* f32, m (*): so far above the lower altitude counts as back; keep it at 0 or above */
    FAILSAFE_CONFIG_ALT_MIN_CLEAR_MS = 126,             /* u32, ms (*): how long so */
    FAILSAFE_CONFIG_STALE_BATTERY_CLEAR_MS = 130,       /* u32, ms (*): StaleBattery ends at the first fresh reading */
    FAILSAFE_CONFIG_BATTERY_WARN_PCT = 134,             /* f32, %: BatteryWarn asks for Warn at a charge below it; it is above battery_low_pct */
    FAILSAFE_CONFIG_BATTERY_WARN_CLEAR_PCT = 138,       /* f32, % (*): a charge above it counts as recovered; it is above battery_warn_pct */
    FAILSAFE_CONFIG_BATTERY_WARN_SET_MS = 142,          /* u32, ms: how long below before it asks */
    FAILSAFE_CONFIG_BATTERY_WARN_CLEAR_MS = 146,        /* u32, ms (*): how long so */
    FAILSAFE_CONFIG_BATTERY_LOW_PCT = 150,              /* f32, %: BatteryLow asks for ReturnToLaunch at a charge below it; it is above battery_critical_pct */
    FAILSAFE_CONFIG_BATTERY_LOW_CLEAR_PCT = 154,        /* f32, % (*): a charge above it counts as recovered; it is above battery_low_pct */
    FAILSAFE_CONFIG_BATTERY_LOW_SET_MS = 158,           /* u32, ms: how long below before it asks */
    FAILSAFE_CONFIG_BATTERY_LOW_CLEAR_MS = 162,         /* u32, ms (*): how long so */
    FAILSAFE_CONFIG_BATTERY_CRITICAL_PCT = 166,         /* f32, %: BatteryCritical asks for Land at a charge below it, and is latched */
    FAILSAFE_CONFIG_BATTERY_CRITICAL_V_PER_CELL = 170,  /* f32, V: or at a voltage below it times cell_count, where there is a charge too */
    FAILSAFE_CONFIG_BATTERY_CRITICAL_SET_MS = 174,      /* u32, ms: how long below before it asks */
    FAILSAFE_CONFIG_ENERGY_MARGINAL_WH = 178,           /* f32, Wh: EnergyRtlMarginal asks for ReturnToLaunch at a margin from 0 to under this */
    FAILSAFE_CONFIG_ENERGY_MARGINAL_CLEAR_WH = 182,     /* f32, Wh (*): a margin above it counts as recovered; keep it at energy_marginal_wh or above */
    FAILSAFE_CONFIG_ENERGY_MARGINAL_SET_MS = 186,       /* u32, ms: how long so before it asks */
    FAILSAFE_CONFIG_ENERGY_MARGINAL_CLEAR_MS = 190,     /* u32, ms (*): how long so */
    FAILSAFE_CONFIG_ENERGY_INFEASIBLE_SET_MS = 194,     /* u32, ms, 1 to 600,000: how long at a margin below 0 before EnergyRtlInfeasible asks for Land; latched */
    FAILSAFE_CONFIG_INVALID_INPUT_CLEAR_MS = 198,       /* u32, ms: how long InvalidInput stays after the last reading out of bounds */
    FAILSAFE_CONFIG_DISARM_HOLD_MS = 202,               /* u32, ms, 1 to 600,000: how long on the ground before disarm_eligible */
    FAILSAFE_CONFIG_V_CRUISE = 206,                     /* f32, m/s, above 0: speed of the way home */
    FAILSAFE_CONFIG_P_CRUISE = 210,                     /* f32, W, 0 or more: power of it */
    FAILSAFE_CONFIG_K_WIND = 214,                       /* f32, factor on the energy of the way home, for wind; it is not checked */
    FAILSAFE_CONFIG_V_CLIMB = 218,                      /* f32, m/s, above 0: speed of a climb */
    FAILSAFE_CONFIG_P_CLIMB = 222,                      /* f32, W, 0 or more: power of it */
    FAILSAFE_CONFIG_V_DESC = 226,                       /* f32, m/s, above 0: speed of a descent */
    FAILSAFE_CONFIG_P_DESC = 230,                       /* f32, W, 0 or more: power of it */
    FAILSAFE_CONFIG_H_RTL = 234,                        /* f32, m above home, within the fence: altitude of the way home */
    FAILSAFE_CONFIG_RESERVE_WH = 238,                   /* f32, Wh, 0 or more: left when the aircraft is home */
    FAILSAFE_CONFIG_V_MAX = 242                         /* f32, m/s: the fastest flight; a position that jumps by more than 2 * v_max * seconds + 5 m is refused */
};

/* Places in a telemetry frame. A reading that may be absent begins with a flag, 0 or 1, and where that is 0 all its bytes are 0. A
 * reading out of its bounds counts as absent and raises InvalidInput. */
enum failsafe_telemetry_place {
    FAILSAFE_TELEMETRY_NOW_MS = 4,                /* u32, ms: the clock at this step. It may wrap, and must not go back */
    FAILSAFE_TELEMETRY_POSITION = 8,              /* flag; the vehicle's estimated position */
    FAILSAFE_TELEMETRY_POSITION_T_MS = 9,         /* u32, ms: when it was measured, on the clock of now_ms; so every t_ms */
    FAILSAFE_TELEMETRY_POSITION_POS_NORTH = 13,   /* f32, m north of home, within 10,000 */
    FAILSAFE_TELEMETRY_POSITION_POS_EAST = 17,    /* f32, m east of home, within 10,000 */
    FAILSAFE_TELEMETRY_POSITION_POS_DOWN = 21,    /* f32, m below home: -50 is 50 m above; 100 to -2000 */
    FAILSAFE_TELEMETRY_POSITION_VEL_NORTH = 25,   /* f32, m/s; of the velocity only its size is looked at, at most 100 */
    FAILSAFE_TELEMETRY_POSITION_VEL_EAST = 29,    /* f32, m/s */
    FAILSAFE_TELEMETRY_POSITION_VEL_DOWN = 33,    /* f32, m/s */
    FAILSAFE_TELEMETRY_GPS = 37,                  /* flag; the satellite receiver */
    FAILSAFE_TELEMETRY_GPS_T_MS = 38,             /* u32, ms */
    FAILSAFE_TELEMETRY_GPS_FIX = 42,              /* enum failsafe_fix */
    FAILSAFE_TELEMETRY_GPS_SATS = 43,             /* flag */
    FAILSAFE_TELEMETRY_GPS_SATS_VALUE = 44,       /* u8: satellites in use */
    FAILSAFE_TELEMETRY_GPS_HDOP = 45,             /* flag */
    FAILSAFE_TELEMETRY_GPS_HDOP_VALUE = 46,       /* f32: horizontal dilution of precision, 0 to 100 */
    FAILSAFE_TELEMETRY_VOLTAGE_V = 50,            /* flag */
    FAILSAFE_TELEMETRY_VOLTAGE_V_T_MS = 51,       /* u32, ms */
    FAILSAFE_TELEMETRY_VOLTAGE_V_VALUE = 55,      /* f32, V: of the whole battery, 0 to 100 */
    FAILSAFE_TELEMETRY_PERCENT = 59,              /* flag */
    FAILSAFE_TELEMETRY_PERCENT_T_MS = 60,         /* u32, ms */
    FAILSAFE_TELEMETRY_PERCENT_VALUE = 64,        /* f32, %: the battery's charge, 0 to 100; used where remaining_wh is not fresh */
    FAILSAFE_TELEMETRY_REMAINING_WH = 68,         /* flag */
    FAILSAFE_TELEMETRY_REMAINING_WH_T_MS = 69,    /* u32, ms */
    FAILSAFE_TELEMETRY_REMAINING_WH_VALUE = 73,   /* f32, Wh: left in the battery, 0 to 1.1 times usable_capacity_wh */
    FAILSAFE_TELEMETRY_GCS_HEARTBEAT_MS = 77,     /* flag */
    FAILSAFE_TELEMETRY_GCS_HEARTBEAT_MS_VALUE = 78, /* u32, ms: when the ground station was last heard */
    FAILSAFE_TELEMETRY_ARMED = 82,                /* flag */
    FAILSAFE_TELEMETRY_ARMED_T_MS = 83,           /* u32, ms */
    FAILSAFE_TELEMETRY_ARMED_VALUE = 87,          /* bool: the motors are armed; a fresh false answers Nominal and starts anew */
    FAILSAFE_TELEMETRY_LANDED = 88,               /* flag */
    FAILSAFE_TELEMETRY_LANDED_T_MS = 89,          /* u32, ms */
    FAILSAFE_TELEMETRY_LANDED_VALUE = 93,         /* enum failsafe_landed */
    FAILSAFE_TELEMETRY_RC_OK = 94,                /* flag */
    FAILSAFE_TELEMETRY_RC_OK_T_MS = 95,           /* u32, ms */
    FAILSAFE_TELEMETRY_RC_OK_VALUE = 99,          /* bool: the hand controller is heard */
    FAILSAFE_TELEMETRY_EKF_OK = 100,              /* flag */
    FAILSAFE_TELEMETRY_EKF_OK_T_MS = 101,         /* u32, ms */
    FAILSAFE_TELEMETRY_EKF_OK_VALUE = 105         /* bool: the position estimator is healthy; no position is valid without it */
};

/* Places in a telemetry frame of kind 9: those of kind 3, each of the eleven instants (now_ms, the stamps and the heartbeat) in eight bytes. */
enum failsafe_wide_telemetry_place {
    FAILSAFE_WIDE_TELEMETRY_NOW_MS = 4,                 /* u64, ms: the clock at this step. It does not wrap, and must not go back */
    FAILSAFE_WIDE_TELEMETRY_POSITION = 12,
    FAILSAFE_WIDE_TELEMETRY_POSITION_T_MS = 13,         /* u64, ms; so every t_ms */
    FAILSAFE_WIDE_TELEMETRY_POSITION_POS_NORTH = 21,
    FAILSAFE_WIDE_TELEMETRY_POSITION_POS_EAST = 25,
    FAILSAFE_WIDE_TELEMETRY_POSITION_POS_DOWN = 29,
    FAILSAFE_WIDE_TELEMETRY_POSITION_VEL_NORTH = 33,
    FAILSAFE_WIDE_TELEMETRY_POSITION_VEL_EAST = 37,
    FAILSAFE_WIDE_TELEMETRY_POSITION_VEL_DOWN = 41,
    FAILSAFE_WIDE_TELEMETRY_GPS = 45,
    FAILSAFE_WIDE_TELEMETRY_GPS_T_MS = 46,
    FAILSAFE_WIDE_TELEMETRY_GPS_FIX = 54,
    FAILSAFE_WIDE_TELEMETRY_GPS_SATS = 55,
    FAILSAFE_WIDE_TELEMETRY_GPS_SATS_VALUE = 56,
    FAILSAFE_WIDE_TELEMETRY_GPS_HDOP = 57,
    FAILSAFE_WIDE_TELEMETRY_GPS_HDOP_VALUE = 58,
    FAILSAFE_WIDE_TELEMETRY_VOLTAGE_V = 62,
    FAILSAFE_WIDE_TELEMETRY_VOLTAGE_V_T_MS = 63,
    FAILSAFE_WIDE_TELEMETRY_VOLTAGE_V_VALUE = 71,
    FAILSAFE_WIDE_TELEMETRY_PERCENT = 75,
    FAILSAFE_WIDE_TELEMETRY_PERCENT_T_MS = 76,
    FAILSAFE_WIDE_TELEMETRY_PERCENT_VALUE = 84,
    FAILSAFE_WIDE_TELEMETRY_REMAINING_WH = 88,
    FAILSAFE_WIDE_TELEMETRY_REMAINING_WH_T_MS = 89,
    FAILSAFE_WIDE_TELEMETRY_REMAINING_WH_VALUE = 97,
    FAILSAFE_WIDE_TELEMETRY_GCS_HEARTBEAT_MS = 101,
    FAILSAFE_WIDE_TELEMETRY_GCS_HEARTBEAT_MS_VALUE = 102, /* u64, ms */
    FAILSAFE_WIDE_TELEMETRY_ARMED = 110,
    FAILSAFE_WIDE_TELEMETRY_ARMED_T_MS = 111,
    FAILSAFE_WIDE_TELEMETRY_ARMED_VALUE = 119,
    FAILSAFE_WIDE_TELEMETRY_LANDED = 120,
    FAILSAFE_WIDE_TELEMETRY_LANDED_T_MS = 121,
    FAILSAFE_WIDE_TELEMETRY_LANDED_VALUE = 129,
    FAILSAFE_WIDE_TELEMETRY_RC_OK = 130,
    FAILSAFE_WIDE_TELEMETRY_RC_OK_T_MS = 131,
    FAILSAFE_WIDE_TELEMETRY_RC_OK_VALUE = 139,
    FAILSAFE_WIDE_TELEMETRY_EKF_OK = 140,
    FAILSAFE_WIDE_TELEMETRY_EKF_OK_T_MS = 141,
    FAILSAFE_WIDE_TELEMETRY_EKF_OK_VALUE = 149
};

/* Places in a Decision's frame, kind 4 and kind 6.
 *
 * `requested` is the highest action that this step's own requests ask for. `action` is what the aircraft does: it may stand higher,
 * since an action steps down only after recovery_hold_ms, a latch keeps Land, and Hold and ReturnToLaunch without a valid position
 * become Land. A host shows `requested` beside `action` to tell a pilot that the trouble is over and the hold still runs.
 *
 * `disarm_eligible` tells the autopilot that it may stop the motors after a landing: Land has been requested, and fresh readings have
 * said armed and OnGround, for disarm_hold_ms without a break. It is a permission, not an order, and no other byte gives it. */
enum failsafe_decision_place {
    FAILSAFE_DECISION_ACTION = 4,                 /* enum failsafe_action: what to do now */
    FAILSAFE_DECISION_REASON = 5,                 /* enum failsafe_reason: the one reason shown with it */
    FAILSAFE_DECISION_REQUESTED = 6,              /* enum failsafe_action: what this step's requests ask for; see below */
    FAILSAFE_DECISION_ACTIVE = 7,                 /* 19 slots by reason: FAILSAFE_DECISION_SLOT(reason) */
    FAILSAFE_DECISION_POSITION_VALID = 64,        /* bool: position and ekf_ok are fresh and good; false at a confirmed disarm */
    FAILSAFE_DECISION_CLOCK_FAULT = 65,           /* bool: now_ms went back; timers rest and the last action stays */
    FAILSAFE_DECISION_ENERGY_RTL_WH = 66,         /* f32, Wh: to fly home and land; without a position as from home */
    FAILSAFE_DECISION_ENERGY_LAND_WH = 70,        /* f32, Wh: to land here */
    FAILSAFE_DECISION_ENERGY_RESERVE_WH = 74,     /* f32, Wh: reserve_wh of the configuration */
    FAILSAFE_DECISION_ENERGY_REMAINING_WH = 78,   /* flag; absent without a fresh remaining_wh or percent */
    FAILSAFE_DECISION_ENERGY_REMAINING_WH_VALUE = 79, /* f32, Wh: left in the battery */
    FAILSAFE_DECISION_ENERGY_MARGIN_WH = 83,      /* flag; absent as above */
    FAILSAFE_DECISION_ENERGY_MARGIN_WH_VALUE = 84, /* f32, Wh: remaining less rtl_wh less reserve_wh; below 0 home is out of reach */
    FAILSAFE_DECISION_ENERGY_INSUFFICIENT_FOR_LANDING = 88, /* bool: less remains than land_wh */
    FAILSAFE_DECISION_FENCE_DIST_M = 89,          /* flag; absent without a position */
    FAILSAFE_DECISION_FENCE_DIST_M_VALUE = 90,    /* f32, m: to the nearest side, below 0 outside; beside areas the clearance */
    FAILSAFE_DECISION_DISARM_ELIGIBLE = 94        /* bool, in kind 4; in kind 6 it is at FAILSAFE_SIDE_DISARM_ELIGIBLE */
};
#define FAILSAFE_DECISION_SLOT(reason) (7 + 3 * (reason)) /* flag, then the reason, then the action it asks for */

/* In kind 6 alone. Byte 94 is the number of the fence's side that gave the distance. Sides count from 0 in the order in which the
 * fence is held: counter-clockwise, so corners that are sent clockwise are taken from the last to the first. Side k runs from held
 * corner k to the next. Of sides at the same distance it is the lowest number. */
#define FAILSAFE_DECISION_SIDE 94
#define FAILSAFE_SIDE_DISARM_ELIGIBLE 95
#define FAILSAFE_SIDE_AREA 254 /* an area is nearer than the fence (failsafe_step_areas) */
#define FAILSAFE_SIDE_NONE 255 /* there is no distance, or none below infinity */

/* Places in a fence's frame; altitudes and corners are f32, metres. */
#define FAILSAFE_FENCE_CORNERS 4                    /* u8: how many, 3 to 16 */
#define FAILSAFE_FENCE_MIN_ALT_M 5                  /* AltitudeMin asks below it, away from home */
#define FAILSAFE_FENCE_MAX_ALT_M 9                  /* AltitudeMax asks above it */
#define FAILSAFE_FENCE_NORTH(corner) (13 + 8 * (corner))
#define FAILSAFE_FENCE_EAST(corner) (17 + 8 * (corner))

/* The default configuration as a frame: uint8_t config[FAILSAFE_CONFIG_BYTES] = FAILSAFE_DEFAULT_CONFIG;
 * Change a setting at its place, little-endian, and ask failsafe_check. */
#define FAILSAFE_DEFAULT_CONFIG \
    { \
        0xf4, 0x00, 0x01, 0x00,  /* 244 bytes of kind and body, kind 1 */ \
        0x04,                    /* cell_count 4 */ \
        0x00, 0x00, 0x20, 0x42,  /* usable_capacity_wh 40 */ \
        0x01,                    /* rc_required true */ \
        0xf4, 0x01, 0x00, 0x00,  /* pos_fresh_ms 500 */ \
        0xe8, 0x03, 0x00, 0x00,  /* gps_fresh_ms 1000 */ \
        0xe8, 0x03, 0x00, 0x00,  /* status_fresh_ms 1000 */ \
        0xd0, 0x07, 0x00, 0x00,  /* battery_fresh_ms 2000 */ \
        0x88, 0x13, 0x00, 0x00,  /* recovery_hold_ms 5000 */ \
        0xb8, 0x0b, 0x00, 0x00,  /* gcs_warn_ms 3000 */ \
        0x88, 0x13, 0x00, 0x00,  /* gcs_hold_ms 5000 */ \
        0x98, 0x3a, 0x00, 0x00,  /* gcs_rtl_ms 15000 */ \
        0xdc, 0x05, 0x00, 0x00,  /* gcs_clear_ms 1500 */ \
        0xb8, 0x0b, 0x00, 0x00,  /* gcs_clear_hold_ms 3000 */ \
        0xe8, 0x03, 0x00, 0x00,  /* rc_lost_set_ms 1000 */ \
        0xb8, 0x0b, 0x00, 0x00,  /* rc_lost_clear_ms 3000 */ \
        0xd0, 0x07, 0x00, 0x00,  /* gps_degraded_set_ms 2000 */ \
        0x88, 0x13, 0x00, 0x00,  /* gps_degraded_clear_ms 5000 */ \
        0xdc, 0x05, 0x00, 0x00,  /* gps_lost_set_ms 1500 */ \
        0x88, 0x13, 0x00, 0x00,  /* gps_lost_clear_ms 5000 */ \
        0xe8, 0x03, 0x00, 0x00,  /* ekf_unhealthy_set_ms 1000 */ \
        0x88, 0x13, 0x00, 0x00,  /* ekf_unhealthy_clear_ms 5000 */ \
        0x00, 0x00, 0x20, 0x41,  /* fence_approach_m 10 */ \
        0x00, 0x00, 0x70, 0x41,  /* fence_approach_clear_m 15 */ \
        0xf4, 0x01, 0x00, 0x00,  /* fence_breach_set_ms 500 */ \
        0x00, 0x00, 0xa0, 0x40,  /* fence_breach_clear_m 5 */ \
        0x88, 0x13, 0x00, 0x00,  /* fence_breach_clear_ms 5000 */ \
        0x00, 0x00, 0xa0, 0x40,  /* alt_max_clear_m 5 */ \
        0xf4, 0x01, 0x00, 0x00,  /* alt_max_set_ms 500 */ \
        0xb8, 0x0b, 0x00, 0x00,  /* alt_max_clear_hold_ms 3000 */ \
        0x00, 0x00, 0xa0, 0x41,  /* alt_min_home_radius_m 20 */ \
        0xe8, 0x03, 0x00, 0x00,  /* alt_min_set_ms 1000 */ \
        0x00, 0x00, 0x00, 0x40,  /* alt_min_clear_m 2 */ \
        0xe8, 0x03, 0x00, 0x00,  /* alt_min_clear_ms 1000 */ \
        0xb8, 0x0b, 0x00, 0x00,  /* stale_battery_clear_ms 3000 */ \
        0x00, 0x00, 0xf0, 0x41,  /* battery_warn_pct 30 */ \
        0x00, 0x00, 0x04, 0x42,  /* battery_warn_clear_pct 33 */ \
        0xd0, 0x07, 0x00, 0x00,  /* battery_warn_set_ms 2000 */ \
        0x88, 0x13, 0x00, 0x00,  /* battery_warn_clear_ms 5000 */ \
        0x00, 0x00, 0xa0, 0x41,  /* battery_low_pct 20 */ \
        0x00, 0x00, 0xb8, 0x41,  /* battery_low_clear_pct 23 */ \
        0xd0, 0x07, 0x00, 0x00,  /* battery_low_set_ms 2000 */ \
        0x88, 0x13, 0x00, 0x00,  /* battery_low_clear_ms 5000 */ \
        0x00, 0x00, 0x20, 0x41,  /* battery_critical_pct 10 */ \
        0x33, 0x33, 0x53, 0x40,  /* battery_critical_v_per_cell 3.3 */ \
        0xb8, 0x0b, 0x00, 0x00,  /* battery_critical_set_ms 3000 */ \
        0x00, 0x00, 0xa0, 0x40,  /* energy_marginal_wh 5 */ \
        0x00, 0x00, 0xe0, 0x40,  /* energy_marginal_clear_wh 7 */ \
        0xd0, 0x07, 0x00, 0x00,  /* energy_marginal_set_ms 2000 */ \
        0x88, 0x13, 0x00, 0x00,  /* energy_marginal_clear_ms 5000 */ \
        0xd0, 0x07, 0x00, 0x00,  /* energy_infeasible_set_ms 2000 */ \
        0xb8, 0x0b, 0x00, 0x00,  /* invalid_input_clear_ms 3000 */ \
        0xd0, 0x07, 0x00, 0x00,  /* disarm_hold_ms 2000 */ \
        0x00, 0x00, 0x20, 0x41,  /* v_cruise 10 */ \
        0x00, 0x00, 0xaf, 0x43,  /* p_cruise 350 */ \
        0x00, 0x00, 0xa0, 0x3f,  /* k_wind 1.25 */ \
        0x00, 0x00, 0x00, 0x40,  /* v_climb 2 */ \
        0x00, 0x00, 0xc8, 0x43,  /* p_climb 400 */ \
        0x00, 0x00, 0xc0, 0x3f,  /* v_desc 1.5 */ \
        0x00, 0x00, 0x96, 0x43,  /* p_desc 300 */ \
        0x00, 0x00, 0xf0, 0x41,  /* h_rtl 30 */ \
        0x00, 0x00, 0x00, 0x41,  /* reserve_wh 8 */ \
        0x00, 0x00, 0xc8, 0x41   /* v_max 25 */ \
    }

/* The default fence as a frame of kind 2: a square of 1,000 m about home, from 5 m to 120 m. */
#define FAILSAFE_DEFAULT_FENCE \
    { \
        0x2b, 0x00, 0x02, 0x00,                          /* 43 bytes of kind and body, kind 2 */ \
        0x04,                                            /* 4 corners */ \
        0x00, 0x00, 0xa0, 0x40, 0x00, 0x00, 0xf0, 0x42,  /* 5 m, 120 m */ \
        0x00, 0x00, 0xfa, 0xc3, 0x00, 0x00, 0xfa, 0xc3,  /* -500, -500 */ \
        0x00, 0x00, 0xfa, 0xc3, 0x00, 0x00, 0xfa, 0x43,  /* -500, 500 */ \
        0x00, 0x00, 0xfa, 0x43, 0x00, 0x00, 0xfa, 0x43,  /* 500, 500 */ \
        0x00, 0x00, 0xfa, 0x43, 0x00, 0x00, 0xfa, 0xc3   /* 500, -500 */ \
    }

/* One step: the state is rewritten, and the Decision stands in the first 95 bytes of output; later bytes stay.
 * Configuration and fence come with every call and are checked each time. */
uint32_t failsafe_step(const uint8_t *config, size_t config_len,
                       const uint8_t *fence, size_t fence_len,
                       uint8_t *state, size_t state_len,
                       const uint8_t *telemetry, size_t telemetry_len,
                       uint8_t *output, size_t output_len);

/* The same step, with the Decision as kind 6 in the first 96 bytes of output. A flight may mix both entries. */
uint32_t failsafe_step_side(const uint8_t *config, size_t config_len,
                            const uint8_t *fence, size_t fence_len,
                            uint8_t *state, size_t state_len,
                            const uint8_t *telemetry, size_t telemetry_len,
                            uint8_t *output, size_t output_len);

/* The same step beside keep-out areas: `areas` is a frame of kind 13, or empty for no area. The distance in
 * the Decision, and what the fence's warning and breach look at, is then the clearance: the smaller of the
 * fence's distance and, for each area, minus its signed distance. Signed distances go to the lines of the
 * sides, so past a corner clearance is less than the way to that corner. The side byte is the fence's where
 * the fence's distance is no larger than the rest, else 254. Areas may change between any two steps, and a
 * flight may mix the three entries. */
uint32_t failsafe_step_areas(const uint8_t *config, size_t config_len,
                             const uint8_t *fence, size_t fence_len,
                             uint8_t *state, size_t state_len,
                             const uint8_t *telemetry, size_t telemetry_len,
                             uint8_t *output, size_t output_len,
                             const uint8_t *areas, size_t areas_len);

/* The areas with one more: `areas` (kind 13, or empty for none) and `area` (kind 7) make the frame of kind
 * 13 in the front of output; later bytes stay. FAILSAFE_AREAS_MOST bytes are always enough; the frame's
 * first two bytes plus 2 are its length. The corners stay as they were sent, bit for bit. Refusals: those of
 * areas as in a step, those of the area's frame (1, 3, 2, 3), those of the area (its polygon, 31, 30, 32),
 * then 5. On a refusal nothing is written, and a host goes on with the areas it has. */
uint32_t failsafe_add_area(const uint8_t *areas, size_t areas_len,
                           const uint8_t *area, size_t area_len,
                           uint8_t *output, size_t output_len);

/* The areas without the one of this number, whose place can be used again. Without the last one it is a
 * frame of count 0, which is no area for a step. Refusals: those of areas as in a step, 31 where the number
 * is not held, then 5. */
uint32_t failsafe_remove_area(const uint8_t *areas, size_t areas_len, uint8_t number,
                              uint8_t *output, size_t output_len);

/* Which of a row of points are inside the fence, for a map. A point is 8 bytes: north and east, each a
 * binary32 number, in metres from home. For each point two bytes are written: 1 for inside (on a side too)
 * or 0, and the number of sides that were read: the test stops at the first side with a negative distance.
 * Later output bytes stay. The fence is read and accepted once, and its sides' lengths are worked out once.
 * Answers 0; or, with no byte changed, the fence's refusal, 3 for points of a length that is not a multiple
 * of 8, 5 for an output under 2 bytes a point. */
uint32_t failsafe_inside(const uint8_t *fence, size_t fence_len,
                         const uint8_t *points, size_t points_len,
                         uint8_t *output, size_t output_len);

/* Before a flight: 0, or the refusal that every step with this configuration and fence would answer. */
uint32_t failsafe_check(const uint8_t *config, size_t config_len,
                        const uint8_t *fence, size_t fence_len);

/* A fresh state in the first 186 bytes of state; later bytes stay. The steps take a state slice of
 * exactly 186 bytes. */
uint32_t failsafe_fresh(uint8_t *state, size_t state_len);

/* The same for a flight whose configuration is of kind 11: a fresh state of kind 12 in the first 194 bytes, and the steps take a slice
 * of exactly 194. Under such a configuration GpsDegraded, GpsLost, EkfUnhealthy, FenceBreach, AltitudeMin, BatteryWarn, BatteryLow and
 * EnergyRtlMarginal, once raised, stay until their clear time has passed, so that they don't come and go within a second; a confirmed
 * disarm drops them all. RcLost waits for rc_lost_set_ms. All else is as under kind 1. A state of kind 5 beside a configuration of
 * kind 11, or of kind 12 beside one of kind 1, is refused with 2. */
uint32_t failsafe_fresh_raised(uint8_t *state, size_t state_len);

/* The same for an aircraft that stays powered for months: a fresh state of kind 10 in the first 306 bytes, all zero after its head, and
 * the steps take a slice of exactly 306 with telemetry of kind 9. Its clock has 64 bits and does not wrap. An age is now_ms minus the
 * stamp, and absent only where the stamp is later than now_ms; a clock fault is a reading below the last sound one. Durations stay
 * 32-bit and are compared exactly: an age of 4,294,967,296 is above a limit of 4,294,967,295, and an absent heartbeat, which counts as
 * 4,294,967,295, is not. There is no upper limit on a quiet stretch or another hold. All else is as with kinds 3 and 5, in every entry
 * that steps. Beside a configuration of kind 11 a state of kind 10 or telemetry of kind 9 is refused with 2, and so is telemetry of the
 * other clock than the state's. */
uint32_t failsafe_fresh_wide(uint8_t *state, size_t state_len);

/* A running state of kind 5 carried over to the 64-bit clock, without landing: `old` is the state, `last_now` is T, the last sound
 * reading in 64 bits, and the state of kind 10 stands in the first 306 bytes of new_state; later bytes stay. Each held instant becomes
 * T minus its age on the 32-bit clock, last_now becomes T, and the epoch becomes T minus its age, or T where it has no age or one above
 * T; no Decision looks at it. The old state stays as it is: keep it until this one answers 0. From then on hand over telemetry of
 * kind 9 on the same clock. As long as no reading goes back, no stamp is ahead of its reading, and every age, those of what is
 * held too, and every gap between readings is under 2,147,483,648 ms, the Decisions are those of the 32-bit clock.
 *
 * Refusals, in this order, with no byte changed: those of the old state's frame, with a kind 5 due; 34 where it has no last_now (it has
 * not been stepped yet: take failsafe_fresh_wide), or T's lower 32 bits are not last_now; 35 where a held instant (a timer, the
 * recovery's start, the disarm hold, the stored position's stamp) has no age at last_now, as of a position stamped ahead or of a timer that
 * has run for 2,147,483,648 ms, or has one above T; 5 where new_state has under 306 bytes. After 35 a host goes on with the old state
 * and asks again after a later step. */
uint32_t failsafe_widen(const uint8_t *old, size_t old_len, uint64_t last_now,
                        uint8_t *new_state, size_t new_state_len);

/* A test load that everyone can make: the next telemetry frame of a trial flight in the first 106 bytes of
 * output; later bytes stay. The generator is 9 bytes: x (4), now_ms (4), and a byte that is 0 before the
 * first frame and 1 after it; the call rewrites it. A host starts with the seed and five zeros. Refusals, in
 * this order, with no byte of either buffer changed: 1 for a generator of fewer bytes, 3 for one of more, 4
 * for a last byte above 1, 5 for an output under 106 bytes. It is a load, not a flight: README.md says what
 * it reaches. */
#define FAILSAFE_GENERATOR_BYTES 9
uint32_t failsafe_trial(uint8_t *generator, size_t generator_len, uint8_t *output, size_t output_len);

/* The energy of a return in whole numbers, which can be checked on paper (docs/ENERGY.md). It takes no part in a
 * step. `input` is thirteen numbers, each a signed 32-bit number, little-endian:
 *
 *   place   number                          limits                    unit
 *   0, 4    position north, east            -10,000,000 to 10,000,000 mm
 *   8       position altitude               -100,000 to 2,000,000     mm
 *   12, 16  home north, east                -10,000,000 to 10,000,000 mm
 *   20      return altitude                 0 to 2,000,000            mm
 *   24..32  power of climb, cruise, descent 0 to 10,000,000           mW
 *   36      wind                            0 to 10,000               thousandths
 *   40..48  speed of climb, cruise, descent 1 to 100,000              mm/s
 *
 * `output` is nine unsigned 64-bit numbers, little-endian, in its first 72 bytes; later bytes stay: home distance (mm,
 * rounded up) and the remainder of its whole root; climb, cruise and descent, each a quotient (mJ) and its remainder;
 * the total (mJ), which is at least the exact sum for that distance and less than 3 above it.
 *
 * Answers 0, or with no byte changed: 1, input under 52 bytes; 3, input over 52; 36, a number outside its limits;
 * 37, a speed of 0; 5, output under 72 bytes. The first in this order. */
#define FAILSAFE_WHOLE_ENERGY_INPUT_BYTES 52
#define FAILSAFE_WHOLE_ENERGY_BYTES 72
uint32_t failsafe_whole_energy(const uint8_t *input, size_t input_len,
                               uint8_t *output, size_t output_len);

/* Writes an accepted fence of kind 8 in its one form, into the first 13 + 8 * corners bytes of output; later
 * bytes stay. It starts at the corner with least north, then least east, and goes first to the lesser of its
 * two neighbours; every -0 is written as 0. Two fences with the same altitudes and ring of corners write the
 * same bytes. Refusals: the fence's as in a step, with a kind 8 due (a kind 2 is 2); then 39 where the fence
 * so written would itself be declined, since rounding differs by corner; then 5. On a refusal nothing is
 * written. */
uint32_t failsafe_spell_fence(const uint8_t *fence, size_t fence_len,
                              uint8_t *output, size_t output_len);

/* The telemetry frames of two radios for one step, merged into the first 106 bytes of output; later bytes
 * stay. Hand that frame to failsafe_step. Of each reading that may be absent (position, gps, voltage_v,
 * percent, remaining_wh, gcs_heartbeat_ms, armed, landed, rc_ok, ekf_ok) one radio's is taken whole: one
 * that is present before one that is absent; one within the bounds that a step sets for it (remaining_wh by
 * the configuration's capacity) before one that the step would drop; one with an age before one whose stamp
 * lies ahead; the younger; the first radio's. now_ms has to be the same in both. A NaN is written as
 * 7FC00000. Refusals, in this order: those of configuration and fence as in a step, those of the first
 * frame, those of the second, 38 where the two now_ms differ, 5 where output has under 106 bytes. No buffer
 * has changed then. */
uint32_t failsafe_merge(const uint8_t *config, size_t config_len,
                        const uint8_t *fence, size_t fence_len,
                        const uint8_t *first, size_t first_len,
                        const uint8_t *second, size_t second_len,
                        uint8_t *output, size_t output_len);

#ifdef __cplusplus
}
#endif

#endif
