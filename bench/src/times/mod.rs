//! How long calls take, and how deep their stacks go.

mod cases;
mod clock;
pub mod goals;
mod measure;
pub mod plot;
mod scenes;
mod stack;
pub mod table;

pub use cases::{all as all_cases, Case};
pub use measure::{timings, Timing};
pub use scenes::Logs;
pub use stack::{deepest, stacks, Measure, Stack};
