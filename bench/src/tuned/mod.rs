//! The same calls for speed: the agent is lent and changed in place, tested once for each call, and what a drop owes is
//! counted by stretches. No call allocates.

mod agent;
mod air;
mod events;
mod grid;
mod lanes;
mod notices;
mod owing;
mod planner;
mod plans;
mod questions;
mod rom;
mod salvage;
mod sharing;
mod snapshot;
mod subject;
mod waits;
mod within;

pub use agent::{Agent, Title};
pub use subject::Tuned;
