//! Cases with their answers written out by hand: admission, and runs. The fixed
//! list has those that are small enough, and engines are compared on all.

pub mod runs;
pub mod verdicts;
