//! Document 02, L13, by the Rust's own `apply_persistence` and `apply_feasibility`: how many of the 200 mixtures end in
//! each action.
//!   mixtures            the five lines
//!   mixtures expected   the five lines with a clock fault taken for a recovery that has not lasted, then the first
//!                       mixture that the two tell apart, with both actions

use failsafe_core::{Action, ArbiterState, Config, Reason, apply_feasibility, apply_persistence};

const ACTIONS: [Action; 5] = [
    Action::Nominal,
    Action::Warn,
    Action::Hold,
    Action::ReturnToLaunch,
    Action::Land,
];

#[derive(Clone, Copy, Debug)]
struct Mixture {
    previous: Action,
    wanted: Action,
    position_valid: bool,
    clock_fault: bool,
    recovery_elapsed: bool,
}

impl Mixture {
    /// The action that a step shows, as `Supervisor::step` calls the two.
    fn shown(self) -> Action {
        let cfg = Config::default();
        let since = 1_000;
        let mut state = ArbiterState {
            prev_output: self.previous,
            prev_reason: Reason::RcLost,
            recovery_since_ms: Some(since),
        };
        let lasted = cfg.recovery_hold_ms - u32::from(!self.recovery_elapsed);
        let out = apply_persistence(
            &mut state,
            since + lasted,
            &cfg,
            self.wanted,
            Reason::BatteryWarn,
            false,
            self.clock_fault,
            false,
            false,
        );
        apply_feasibility(out.action, out.reason, self.position_valid).0
    }

    fn fault_as_unelapsed(self) -> Self {
        Self {
            clock_fault: false,
            recovery_elapsed: self.recovery_elapsed && !self.clock_fault,
            ..self
        }
    }
}

fn mixtures() -> Vec<Mixture> {
    let mut all = Vec::new();
    for previous in ACTIONS {
        for wanted in ACTIONS {
            for position_valid in [false, true] {
                for clock_fault in [false, true] {
                    for recovery_elapsed in [false, true] {
                        all.push(Mixture {
                            previous,
                            wanted,
                            position_valid,
                            clock_fault,
                            recovery_elapsed,
                        });
                    }
                }
            }
        }
    }
    assert_eq!(all.len(), 200);
    all
}

fn print(shown: impl Fn(Mixture) -> Action) {
    for action in ACTIONS {
        let count = mixtures().into_iter().filter(|m| shown(*m) == action).count();
        println!("{action:?} {count}");
    }
}

fn main() {
    if std::env::args().nth(1).as_deref() != Some("expected") {
        print(Mixture::shown);
        return;
    }
    print(|m| m.fault_as_unelapsed().shown());
    for m in mixtures() {
        let (rust, expected) = (m.shown(), m.fault_as_unelapsed().shown());
        if rust != expected {
            println!("{m:?}: the Rust shows {rust:?}, expected is {expected:?}");
            return;
        }
    }
}
