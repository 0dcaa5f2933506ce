//! Asks the original Rust engine, built unchanged, for its answers, and makes
//! the programs to ask about.
//!
//! A library, so that what compares another engine with the Rust shares the
//! image reader, the numbers and the programs.

pub mod answer;
pub mod digest;
pub mod edges;
pub mod encode;
pub mod examples;
pub mod fields;
pub mod generate;
pub mod image;
pub mod lines;
pub mod list;
pub mod measure;
pub mod operate;
pub mod program;
pub mod random;
pub mod reading;
pub mod records;
pub mod run;
pub mod runner;
#[cfg(test)]
mod sample;
pub mod text;
pub mod verdict;
pub mod word;
pub mod worked;
