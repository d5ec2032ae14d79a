//! The entries in plain Rust: what they return, what they write, and what they leave.

use failsafe_open as rust;

use crate::areas::{read_areas, step_clear_by};
use crate::bytes::{NO_ROOM, put_frame, read_frame, write_frame};
use crate::codec::{CONFIG, DECISION, STATE, TELEMETRY, fence_open, read_fence};
use crate::raised::{CONFIG_RAISED, Raised, RaisedState, STATE_RAISED};
use crate::side::{put_side, side_of};
use crate::state::State;
use crate::{DECISION_FRAME, SIDE_FRAME, STATE_FRAME};

/// 20 to 28 for one build of the Rust.
macro_rules! config_error {
    ($name:ident, $rust:ident) => {
        pub fn $name(error: $rust::ConfigError) -> u32 {
            use $rust::ConfigError::*;
            match error {
                Fence(_) => unreachable!("validate_config is handed a fence"),
                HomeOutsideFence => 20,
                RtlAltOutsideFence => 21,
                NonFiniteParam => 22,
                NonPositiveSpeed => 23,
                NegativePower => 24,
                BadCellCount => 25,
                BadCapacity => 26,
                BadThresholdOrder => 27,
                DurationOutOfRange => 28,
            }
        }
    };
}
config_error!(config_error_core, failsafe_core);
config_error!(config_error_open, failsafe_open);

/// What a step writes: kind 4, or kind 6, or kind 6 beside the areas of a frame.
#[derive(Clone, Copy)]
pub enum Form<'a> {
    Plain,
    Side,
    Areas(&'a [u8]),
}

/// What the configuration's kind decides: the state beside it, and the rule of a step.
trait Kind {
    const CONFIG: u16;
    fn read_state(frame: &[u8]) -> Result<(State, Raised), u32>;
    fn put_state(state: State, raised: Raised, to: &mut [u8]);
    fn step(
        &self,
        supervisor: &mut rust::Supervisor,
        raised: &mut Raised,
        raw: &rust::Telemetry,
    ) -> rust::Decision;
}

/// Kind 1.
struct Matching;

impl Kind for Matching {
    const CONFIG: u16 = CONFIG;

    #[inline(always)]
    fn read_state(frame: &[u8]) -> Result<(State, Raised), u32> {
        Ok((State::read_frame(frame)?, Raised::default()))
    }

    #[inline(always)]
    fn put_state(state: State, _raised: Raised, to: &mut [u8]) {
        put_frame(STATE, &state, to);
    }

    #[inline]
    fn step(
        &self,
        supervisor: &mut rust::Supervisor,
        _raised: &mut Raised,
        raw: &rust::Telemetry,
    ) -> rust::Decision {
        supervisor.step(raw)
    }
}

/// Kind 11, with a step that may be another than the due one.
struct Keeping<F>(F);

impl<F> Kind for Keeping<F>
where
    F: Fn(&mut rust::Supervisor, &mut Raised, &rust::Telemetry) -> rust::Decision,
{
    const CONFIG: u16 = CONFIG_RAISED;

    fn read_state(frame: &[u8]) -> Result<(State, Raised), u32> {
        let held = RaisedState::read_frame(frame)?;
        Ok((held.state, held.raised))
    }

    fn put_state(state: State, raised: Raised, to: &mut [u8]) {
        put_frame(STATE_RAISED, &RaisedState { state, raised }, to);
    }

    fn step(
        &self,
        supervisor: &mut rust::Supervisor,
        raised: &mut Raised,
        raw: &rust::Telemetry,
    ) -> rust::Decision {
        (self.0)(supervisor, raised, raw)
    }
}

/// Whether the configuration is one of kind 11, as far as its kind can be read.
fn keeps(config: &[u8]) -> bool {
    config.get(2..4) == Some(&CONFIG_RAISED.to_le_bytes())
}

/// Configuration frame, fence frame, fence rules, configuration rules.
#[inline(always)]
pub(crate) fn flight(
    kind: u16,
    config: &[u8],
    fence: &[u8],
) -> Result<(rust::Config, rust::Geofence), u32> {
    let cfg: rust::Config = read_frame(kind, config)?;
    let sent = read_fence(fence)?;
    let fence = fence_open(&sent)?;
    rust::validate_config(&cfg, &fence).map_err(config_error_open)?;
    Ok((cfg, fence))
}

/// The flight, areas, state, telemetry, output.
#[inline]
fn step<K: Kind>(
    kind: K,
    form: Form,
    config: &[u8],
    fence: &[u8],
    state: &mut [u8],
    telemetry: &[u8],
    output: &mut [u8],
) -> Result<(), u32> {
    let (cfg, fence) = flight(K::CONFIG, config, fence)?;
    let (room, areas) = match form {
        Form::Plain => (DECISION_FRAME, None),
        Form::Side => (SIDE_FRAME, None),
        Form::Areas(frame) => (SIDE_FRAME, Some(read_areas(frame)?)),
    };
    let (held, mut raised) = K::read_state(state)?;
    let raw: rust::Telemetry = read_frame(TELEMETRY, telemetry)?;
    if output.len() < room {
        return Err(NO_ROOM);
    }
    let mut supervisor = held.with(cfg, fence);
    let (decision, side) = match areas {
        Some(areas) => {
            let by_kind = |supervisor: &mut rust::Supervisor, raw: &rust::Telemetry| {
                kind.step(supervisor, &mut raised, raw)
            };
            let (decision, side) = step_clear_by(&mut supervisor, &areas, &raw, by_kind);
            (decision, Some(side))
        }
        None => {
            let decision = kind.step(&mut supervisor, &mut raised, &raw);
            let shown = room == SIDE_FRAME;
            (
                decision,
                shown.then(|| side_of(&supervisor.fence, &raw, &decision)),
            )
        }
    };
    K::put_state(State::of(&supervisor), raised, state);
    put_frame(DECISION, &decision, output);
    if let Some(side) = side {
        put_side(side, output);
    }
    Ok(())
}

/// 0, or the refusal's number with every buffer left as it was. Only kind 1 is taken here, as by the next two: the port is timed
/// beside them, and `step_by` takes kind 11 too.
pub fn step_entry(
    config: &[u8],
    fence: &[u8],
    state: &mut [u8],
    telemetry: &[u8],
    output: &mut [u8],
) -> u32 {
    let form = Form::Plain;
    let done = step(Matching, form, config, fence, state, telemetry, output);
    done.err().unwrap_or(0)
}

/// The same with kind 6.
pub fn step_side_entry(
    config: &[u8],
    fence: &[u8],
    state: &mut [u8],
    telemetry: &[u8],
    output: &mut [u8],
) -> u32 {
    let form = Form::Side;
    let done = step(Matching, form, config, fence, state, telemetry, output);
    done.err().unwrap_or(0)
}

/// The same with kind 6 beside areas.
pub fn step_areas_entry(
    config: &[u8],
    fence: &[u8],
    state: &mut [u8],
    telemetry: &[u8],
    output: &mut [u8],
    areas: &[u8],
) -> u32 {
    let form = Form::Areas(areas);
    let done = step(Matching, form, config, fence, state, telemetry, output);
    done.err().unwrap_or(0)
}

/// A step of any form under a configuration of either kind. `keeping` is the step under kind 11.
pub fn step_by(
    keeping: impl Fn(&mut rust::Supervisor, &mut Raised, &rust::Telemetry) -> rust::Decision,
    form: Form,
    config: &[u8],
    fence: &[u8],
    state: &mut [u8],
    telemetry: &[u8],
    output: &mut [u8],
) -> u32 {
    let done = if keeps(config) {
        let kind = Keeping(keeping);
        step(kind, form, config, fence, state, telemetry, output)
    } else {
        step(Matching, form, config, fence, state, telemetry, output)
    };
    done.err().unwrap_or(0)
}

/// The refusal of configuration and fence alone, as in a step, or 0.
pub fn check_entry(config: &[u8], fence: &[u8]) -> u32 {
    let kind = if keeps(config) { CONFIG_RAISED } else { CONFIG };
    flight(kind, config, fence).err().unwrap_or(0)
}

/// Writes a fresh state into the first 186 bytes; later bytes stay.
pub fn fresh_entry(state: &mut [u8]) -> u32 {
    const { assert!(<State as crate::Field>::WIDTH + 4 == STATE_FRAME) }
    match write_frame(STATE, &State::fresh(), state) {
        Ok(()) => 0,
        Err(number) => number,
    }
}
