//! What a watched run can be found guilty of.

use crate::Demand;
use std::fmt;

/// A breach, at an accepted step counted from 1.
#[derive(Clone, Debug, PartialEq, Eq)]
pub enum Breach {
    /// Two conflicting groups show green together.
    GreenTogether {
        step: u64,
        group: usize,
        other: usize,
    },
    /// A group starts a green though a conflicting group has not shown its full
    /// clearance: the colours it has shown since its last green, each with the
    /// number of steps.
    Uncleared {
        step: u64,
        starting: usize,
        conflicting: usize,
        shown: Vec<(u8, u64)>,
    },
    /// Early cut-off begins, and a group that stops early is not yellow.
    StaysOpen { step: u64, group: usize },
    /// The phases kept as demanded are not those that a scan finds.
    DemandedDiffers { step: u64, kept: u8, found: u8 },
    /// A run does not begin with the fresh state of its personality.
    NotFresh,
    /// The times that rule or those that wait are not what they should be.
    WrongTimes { step: u64 },
    /// A step does not report the wait of the times that rule after it.
    WrongWait {
        step: u64,
        reported: u64,
        expected: u64,
    },
    /// The locked demand of a phase is not met within the wait that it has.
    LockUnmet {
        step: u64,
        phase: usize,
        registered: u64,
    },
    /// The button demand of a movement is not met within the wait that it has.
    PressUnmet {
        step: u64,
        movement: usize,
        registered: u64,
    },
    /// A demand of a phase that lasts has no minimum green within the wait of the phase.
    PhaseWaits {
        step: u64,
        phase: usize,
        registered: u64,
        wait: u64,
    },
    /// The button demand of a movement has no walk within the wait of the movement.
    WalkWaits {
        step: u64,
        movement: usize,
        registered: u64,
        wait: u64,
    },
    /// A phase starts for the second time while a demand waits.
    StartsTwice {
        step: u64,
        phase: usize,
        demand: Demand,
        registered: u64,
    },
    /// A call that is right is refused, or one that is wrong is accepted.
    WrongAnswer { step: u64, answer: u64 },
    /// A refused call changes the state or the colour buffer.
    RefusalWrites { step: u64 },
    /// The bytes handed back are no state, or no longer the state of their site.
    NoState { step: u64 },
    /// The state that a sealed record gives back is not the one that was sealed.
    NotResumed { step: u64 },
    /// A call on one site of a cabinet changes another record or output.
    WritesBeside { step: u64 },
}

impl fmt::Display for Breach {
    fn fmt(&self, f: &mut fmt::Formatter<'_>) -> fmt::Result {
        match self {
            Breach::GreenTogether { step, group, other } => {
                write!(
                    f,
                    "step {step}: groups {group} and {other} are green together"
                )
            }
            Breach::Uncleared {
                step,
                starting,
                conflicting,
                shown,
            } => write!(
                f,
                "step {step}: group {starting} starts a green, group {conflicting} has shown \
                 only {shown:?} since its own"
            ),
            Breach::StaysOpen { step, group } => {
                write!(f, "step {step}: group {group} does not stop early")
            }
            Breach::DemandedDiffers { step, kept, found } => write!(
                f,
                "step {step}: demanded phases {kept:#b} are kept, and {found:#b} are demanded"
            ),
            Breach::NotFresh => write!(f, "the run does not begin with the fresh state"),
            Breach::WrongTimes { step } => {
                write!(f, "step {step}: the times that rule or wait are wrong")
            }
            Breach::WrongWait {
                step,
                reported,
                expected,
            } => write!(
                f,
                "step {step}: a wait of {reported} is reported, the times that rule give {expected}"
            ),
            Breach::LockUnmet {
                step,
                phase,
                registered,
            } => write!(
                f,
                "step {step}: the lock of phase {phase} of step {registered} is not met"
            ),
            Breach::PressUnmet {
                step,
                movement,
                registered,
            } => write!(
                f,
                "step {step}: the press for movement {movement} of step {registered} is not met"
            ),
            Breach::PhaseWaits {
                step,
                phase,
                registered,
                wait,
            } => write!(
                f,
                "step {step}: phase {phase}, demanded from step {registered} on, has no minimum \
                 green in fewer than {wait} further steps"
            ),
            Breach::WalkWaits {
                step,
                movement,
                registered,
                wait,
            } => write!(
                f,
                "step {step}: movement {movement}, pressed in step {registered}, has no walk in \
                 fewer than {wait} further steps"
            ),
            Breach::StartsTwice {
                step,
                phase,
                demand,
                registered,
            } => write!(
                f,
                "step {step}: phase {phase} starts again while {demand} of step {registered} waits"
            ),
            Breach::WrongAnswer { step, answer } => {
                write!(f, "after step {step}: a call is answered with {answer:#x}")
            }
            Breach::RefusalWrites { step } => write!(f, "after step {step}: a refusal writes"),
            Breach::NoState { step } => write!(f, "step {step}: no state is handed back"),
            Breach::NotResumed { step } => {
                write!(f, "after step {step}: another state is resumed")
            }
            Breach::WritesBeside { step } => {
                write!(f, "after step {step}: a call writes beside its site")
            }
        }
    }
}

impl std::error::Error for Breach {}
