//! Beside the product: a model of documents 01 and 02 that keeps every event, a tuned version of the same calls, the
//! product's library itself where it is built, and what holds one against the other.

#![deny(warnings)]

pub mod agent_row;
pub mod compare;
#[cfg(feature = "library")]
pub mod library;
pub mod limits;
pub mod model;
pub mod page;
pub mod random;
pub mod refusals;
pub mod replay;
pub mod subject;
pub mod times;
pub mod tuned;
