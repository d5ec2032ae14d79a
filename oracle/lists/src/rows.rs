//! Rows of words and their answers, as text.

use std::collections::BTreeMap;
use std::path::Path;

use failsafe_core::{ConfigError, FenceError};
use words::line;
pub use words::{answered, given};

/// What a row asks. tests/replay/leaves.c has the same numbers.
#[derive(Clone, Copy, PartialEq, Eq, PartialOrd, Ord, Debug)]
pub enum Asks {
    Age = 0x01,
    Fresh = 0x02,
    Reason = 0x03,
    Action = 0x04,
    Requested = 0x05,
    Filed = 0x06,
    Vec3 = 0x07,
    Libm = 0x08,
    Polygon = 0x10,
    Fence = 0x11,
    Distance = 0x12,
    Defaults = 0x20,
    DefaultFence = 0x21,
    Validate = 0x22,
    Energy = 0x30,
    Evaluate = 0x31,
    Reset = 0x32,
}

/// More words than these a row never has, and an answer neither.
const MOST_ARGUMENTS: usize = 126;
const MOST_ANSWERS: usize = 64;

pub struct Rows {
    rows: String,
    answers: String,
    counts: BTreeMap<(Asks, u32), usize>,
}

impl Rows {
    pub fn new() -> Self {
        Rows {
            rows: String::new(),
            answers: String::new(),
            counts: BTreeMap::new(),
        }
    }

    /// The first word of an answer is a refusal's number or 0 wherever there is something to refuse.
    pub fn add(&mut self, asks: Asks, arguments: &[u32], answers: &[u32]) {
        assert!(arguments.len() <= MOST_ARGUMENTS);
        assert!(!answers.is_empty() && answers.len() <= MOST_ANSWERS);
        let head = [asks as u32, arguments.len() as u32];
        line(&mut self.rows, head.iter().chain(arguments));
        line(&mut self.answers, answers.iter());
        let refusable = matches!(
            asks,
            Asks::Polygon | Asks::Fence | Asks::Distance | Asks::Validate
        );
        let kind = if refusable { answers[0] } else { 0 };
        *self.counts.entry((asks, kind)).or_default() += 1;
    }

    pub fn report(&self) {
        for ((asks, kind), count) in &self.counts {
            eprintln!("{asks:?} {kind}: {count}");
        }
        eprintln!("rows: {}", self.counts.values().sum::<usize>());
    }

    pub fn write(&self, folder: &Path) -> std::io::Result<()> {
        std::fs::create_dir_all(folder)?;
        std::fs::write(folder.join("rows"), &self.rows)?;
        std::fs::write(folder.join("answers"), &self.answers)
    }
}

/// 10 to 18, in declared order.
pub fn fence_number(error: FenceError) -> u32 {
    match error {
        FenceError::TooFewVertices => 10,
        FenceError::TooManyVertices => 11,
        FenceError::NonFinite => 12,
        FenceError::OutOfEnvelope => 13,
        FenceError::DuplicateVertex => 14,
        FenceError::CollinearEdge => 15,
        FenceError::NotConvex => 16,
        FenceError::AreaTooSmall => 17,
        FenceError::BadAltitudes => 18,
    }
}

/// 20 to 28, in declared order after Fence.
pub fn config_number(error: ConfigError) -> u32 {
    match error {
        ConfigError::Fence(error) => fence_number(error),
        ConfigError::HomeOutsideFence => 20,
        ConfigError::RtlAltOutsideFence => 21,
        ConfigError::NonFiniteParam => 22,
        ConfigError::NonPositiveSpeed => 23,
        ConfigError::NegativePower => 24,
        ConfigError::BadCellCount => 25,
        ConfigError::BadCapacity => 26,
        ConfigError::BadThresholdOrder => 27,
        ConfigError::DurationOutOfRange => 28,
    }
}
