//! The product's own library, as checks/library builds it: each exported call behind `Subject`.

#[cfg(feature = "emulated")]
pub mod emulated;
pub mod raw;
mod rows;
mod subject;

pub use subject::Library;
