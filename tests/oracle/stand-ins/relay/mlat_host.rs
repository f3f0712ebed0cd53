//! Stand-in for the engine's host, of which the file names one deadline.

pub const STEP_BUDGET_MS: u64 = 1_000;
