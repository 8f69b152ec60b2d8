//! Documents 01 and 02 in plain Rust: the whole list of accepted events is kept, and every answer is read off it.

mod air;
mod events;
mod grid;
mod life;
mod logs;
mod notices;
mod owed;
mod past;
mod planner;
mod plans;
mod questions;
mod salvage;
mod scheme;
mod seen;
mod sharing;
mod snapshot;
mod standing;
mod story;
mod subject;
mod verdicts;
mod waits;
mod within;

pub use events::{Act, Event};
pub use notices::{bytes_of, event_of, read_at};
pub use snapshot::bytes_of_row;
pub use subject::Model;
