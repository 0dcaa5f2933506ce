//! The wrapper as its callers see it, with the engine linked: good and refused calls, and the memory that was lent to them.

mod header;
mod identifiers;
mod images;
mod memory;
mod refusals;
mod runs;
mod values;
