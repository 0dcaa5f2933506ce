//! How a comparison is asked for.

/// The generated cases to compare.
#[derive(Debug, Clone, Copy)]
pub struct Plan {
    pub seed: u64,
    pub count: u64,
    /// Whether an answer that never occurred is a failure. With few cases one
    /// may be missing by chance.
    pub complete: bool,
}
