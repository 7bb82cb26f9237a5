//! The limits of document 01 for the calls that are made here. table.rs, which says what is refused, has its own.

/// The longest series.
pub const SERIES_LIMIT: usize = 65_536;
/// The longest window.
pub const WINDOW_LIMIT: usize = 720;
/// The longest smoother period.
pub const PERIOD_LIMIT: usize = 512;
/// The largest value that is accepted.
pub const VALUE_LIMIT: f64 = 1_073_741_824.0;
/// The largest whole tick.
pub const TICK_LIMIT: i64 = 16_777_216;
