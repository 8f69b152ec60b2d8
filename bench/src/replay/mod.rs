//! The project's stored inputs and outputs, played to a subject: the operator's console, and the programs over logs.

pub mod console;
pub mod programs;
