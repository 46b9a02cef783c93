//! The comparisons of the port: with the published Rust in one process, bit for bit, and with independent Rust where the published has no such call.
//!
//! Two not-a-numbers count as equal, since the language leaves a not-a-number's payload open.

pub mod alone;
pub mod cloud;
pub mod clouds;
pub mod index;
pub mod lay;
pub mod lengths;
pub mod numbers;
pub mod order;
pub mod origins;
pub mod report;
pub mod season;
pub mod shrink;
pub mod sides;
pub mod stl;
pub mod triangles;
pub mod verdicts;
