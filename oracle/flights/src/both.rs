//! The Rust as it is, and the same source with its fields public, on the same bytes. Any difference between
//! them ends the program: only what the unchanged build answers counts.

use frames::{
    CONFIG, DECISION, DECISION_FRAME, STATE, STATE_FRAME, State, TELEMETRY, config_error_core,
    config_error_open, fence_core, fence_open, put_frame, read_fence, read_frame,
};

#[derive(Clone)]
pub struct Both {
    core: failsafe_core::Supervisor,
    open: failsafe_open::Supervisor,
}

impl Both {
    /// From a configuration frame and a fence frame; the refusal's number where they are not accepted.
    pub fn new(config: &[u8], fence: &[u8]) -> Result<Self, u32> {
        let core = read_frame(CONFIG, config).and_then(|cfg| {
            let fence = fence_core(&read_fence(fence)?)?;
            failsafe_core::Supervisor::new(cfg, fence).map_err(config_error_core)
        });
        let open = read_frame(CONFIG, config).and_then(|cfg| {
            let fence = fence_open(&read_fence(fence)?)?;
            failsafe_open::Supervisor::new(cfg, fence).map_err(config_error_open)
        });
        match (core, open) {
            (Ok(core), Ok(open)) => Ok(Both { core, open }),
            (Err(a), Err(b)) if a == b => Err(a),
            _ => panic!("the two builds of the Rust differ on a configuration"),
        }
    }

    /// The Decision's frame.
    pub fn step(&mut self, telemetry: &[u8]) -> [u8; DECISION_FRAME] {
        let mut core = [0; DECISION_FRAME];
        let raw = read_frame(TELEMETRY, telemetry).expect("a telemetry frame");
        put_frame(DECISION, &self.core.step(&raw), &mut core);
        let mut open = [0; DECISION_FRAME];
        let raw = read_frame(TELEMETRY, telemetry).expect("a telemetry frame");
        put_frame(DECISION, &self.open.step(&raw), &mut open);
        assert_eq!(core, open, "the two builds of the Rust differ");
        core
    }

    pub fn supervisor(&self) -> &failsafe_open::Supervisor {
        &self.open
    }

    pub fn state(&self) -> State {
        State::of(&self.open)
    }

    pub fn state_frame(&self) -> [u8; STATE_FRAME] {
        let mut frame = [0; STATE_FRAME];
        put_frame(STATE, &self.state(), &mut frame);
        frame
    }
}
