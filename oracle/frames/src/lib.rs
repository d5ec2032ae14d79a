//! The frames of document 01, and of document 02's sides, areas, raised requests and 64-bit instants, in plain Rust, over the Rust's own
//! types, with nothing on the heap (but for 64-bit instants); and the entries over them, to hold the port's entries to.
//!
//! The frames are there for the builds of the Rust: failsafe-core, which is the source as it is;
//! failsafe-open, the same source with its fields public, without which no state can be read or written; and
//! failsafe-wide, the open one with its instants in 64 bits (oracle/run.sh makes them).

mod areas;
mod bytes;
mod codec;
mod entry;
pub mod places;
mod raised;
mod side;
mod state;
mod wide;

pub use areas::{
    AREA, AREA_SIDE, AREAS, AREAS_HELD, Areas, Clearance, add_area_entry, read_areas,
    remove_area_entry, step_clear, step_clear_by,
};
pub use bytes::{
    BAD_LENGTH, BAD_VALUE, Field, NO_ROOM, QUIET_NAN, TRUNCATED, WRONG_KIND, body, put_frame,
    read_frame, write_frame,
};
pub use codec::{
    CONFIG, Corners, DECISION, FENCE, FENCE_ONCE_ROUND, FenceSent, REFUSAL, STATE, TELEMETRY,
    fence_core, fence_open, put_refusal, read_fence, write_fence,
};
pub use entry::{
    Form, check_entry, config_error_core, config_error_open, fresh_entry, step_areas_entry,
    step_by, step_entry, step_side_entry,
};
pub use raised::{
    CONFIG_RAISED, Held, Hold, PAIRS, Raised, RaisedState, STATE_RAISED, answer_to, file,
    fresh_raised_entry, held_by_pairs, pairs, raised_by, step_raised,
};
pub use side::{DECISION_SIDE, put_side, side_of};
pub use state::{State, WideState};
pub use wide::{STATE_WIDE, TELEMETRY_WIDE, fresh_wide_entry, step_any, widen_entry};

/// Bytes of whole frames.
pub const CONFIG_FRAME: usize = 246;
pub const TELEMETRY_FRAME: usize = 106;
pub const DECISION_FRAME: usize = 95;
pub const SIDE_FRAME: usize = 96;
pub const STATE_FRAME: usize = 186;
pub const RAISED_STATE_FRAME: usize = 194;
pub const WIDE_TELEMETRY_FRAME: usize = 150;
pub const WIDE_STATE_FRAME: usize = 306;
pub const REFUSAL_FRAME: usize = 6;
