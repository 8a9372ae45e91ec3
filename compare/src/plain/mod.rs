//! The bench in plain Rust, written from document 01 alone: no proofs, state
//! changed in place. It is the other opinion that the proved library is
//! compared with, and the baseline that it is timed against.

pub mod reader;
pub mod report;
pub mod rules;
pub mod scan;
pub mod state;
