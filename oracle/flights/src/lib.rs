//! Flights for the Rust and the port: configurations, fences and telemetry that seek the boundaries, the
//! two builds of the Rust side by side, keep-out areas, and a count of what the flights passed through.

mod areas;
mod both;
mod coverage;
mod damage;
mod limits;
mod pilot;
mod setup;
mod timers;

pub use areas::{
    Ring, area_body, area_frame, areas_frame, break_areas, break_body, refuse_areas, ring_near,
};
pub use both::Both;
pub use coverage::Coverage;
pub use damage::{break_config, break_fence, damage, once_round, star};
pub use limits::{minus, orders_told};
pub use pilot::Pilot;
pub use setup::{Setup, config_frame, fence_frame, wide};
pub use timers::{Hold, holds};
