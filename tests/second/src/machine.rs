//! The sequencer as a machine: state, host registers, steps.

mod host;
mod state;
mod step;
mod steps;

pub use host::{host_read, host_write};
pub use state::{Activity, Slot, SlotState, State};
pub use step::{step, step_untested, Did, Step, Stop};
pub(crate) use steps::Steps;
