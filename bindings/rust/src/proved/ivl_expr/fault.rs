// Written by bindings/rust/extract from crates/ivl_expr/src/fault.rt.
//! The errors of evaluation.

#[allow(unused_imports)]
use crate::rattle::prelude::*;
use crate::rattle::std::alloc::AllocError;

/// Why [`eval`](crate::proved::ivl_expr::eval) returned no set.
#[derive(Clone, Copy, PartialEq, Eq, Debug)]
pub enum EvalFault {
    /// There is no set for the variable with this index.

    Missing(usize),
    /// The set of some node has a member outside the range of the type.

    Range,
    /// An allocation failed.

    Memory,
}

impl core::fmt::Display for EvalFault {
    fn fmt(&self, f: &mut core::fmt::Formatter<'_>) -> core::fmt::Result {
        match self {
            Self::Missing(x0) => write!(f, "missing variable {0}", x0),
            Self::Range => write!(f, "range"),
            Self::Memory => write!(f, "memory"),
        }
    }
}

impl core::error::Error for EvalFault {}

/// Proved, with these words of the trait:
///
/// ```text
/// from_gives = { λ _ e. e ≡ Memory }
/// ```
impl From<AllocError> for EvalFault {
    fn from(_: AllocError) -> EvalFault {
        EvalFault::Memory
    }
}
