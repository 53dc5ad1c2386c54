//! What ends the program early.

/// The answer, or a fault that is told.
pub type Result<T, E = std::boxed::Box<dyn std::error::Error>> = std::result::Result<T, E>;
