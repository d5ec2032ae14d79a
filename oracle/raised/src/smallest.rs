//! The smallest input where document 02's two sentences on raising part: set and clear have both held at the first step.

use failsafe_open::{Config, PositionSample, Stamped, Telemetry, Vec3};
use flights::Setup;
use frames::{RAISED_STATE_FRAME, STATE_FRAME, TELEMETRY, TELEMETRY_FRAME, put_frame};
use port::{Call, Sides};

use crate::kind_eleven;

/// Byte of the state, and place of the request, of EnergyRtlMarginal.
const RAISED: usize = 186 + 7;
const REQUEST: usize = 7 + 3 * 17;

/// The defaults but for three fields: a margin above 4 Wh and below 5 Wh is marginal and clear at once, and neither timer
/// has to wait.
pub fn config() -> Config {
    Config {
        energy_marginal_clear_wh: 4.0,
        energy_marginal_set_ms: 0,
        energy_marginal_clear_ms: 0,
        ..Config::default()
    }
}

/// On the ground at home, with 15.75 Wh: 10/3 Wh for the return and 8 Wh in reserve leave about 4.42 Wh.
pub fn telemetry() -> Telemetry {
    let zero = Vec3 {
        n: 0.0,
        e: 0.0,
        d: 0.0,
    };
    let mut t = absent();
    t.position = Some(PositionSample {
        t_ms: 0,
        pos: zero,
        vel: zero,
    });
    t.battery.remaining_wh = Some(Stamped {
        t_ms: 0,
        value: 15.75,
    });
    t
}

fn absent() -> Telemetry {
    let mut frame = [0; TELEMETRY_FRAME];
    frame[..4].copy_from_slice(&[104, 0, 3, 0]);
    frames::read_frame(TELEMETRY, &frame).expect("telemetry")
}

/// Under kind 1 there is no request; under kind 11 there is, and it is raised.
pub fn run(sides: &mut Sides) -> Result<(), String> {
    let setup = Setup::with(&config());
    let mut call = Call {
        config: setup.config.to_vec(),
        fence: setup.fence.clone(),
        state: vec![0; STATE_FRAME],
        telemetry: vec![0; TELEMETRY_FRAME],
        output: vec![0; 95],
        ..Call::default()
    };
    put_frame(TELEMETRY, &telemetry(), &mut call.telemetry);
    sides.fresh(&mut call.state)?;
    due("kind 1's number", 0, sides.step_raised(&mut call)?)?;
    due("kind 1's request", 0, call.output[REQUEST].into())?;
    kind_eleven(&mut call.config);
    call.state = vec![0; RAISED_STATE_FRAME];
    sides.fresh_raised(&mut call.state)?;
    due("kind 11's number", 0, sides.step_raised(&mut call)?)?;
    due("kind 11's request", 1, call.output[REQUEST].into())?;
    due("kind 11's state", 1, call.state[RAISED].into())
}

fn due(what: &str, wanted: u32, answer: u32) -> Result<(), String> {
    if wanted == answer {
        return Ok(());
    }
    Err(format!(
        "the smallest input, {what}: {answer}, where {wanted} is due\n"
    ))
}
