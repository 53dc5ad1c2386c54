// Written by bindings/rust/extract from crates/intervallum/src/prelude.rt.
//! The types and every trait of their operations, for glob imports.

#[allow(unused_imports)]
use crate::rattle::prelude::*;
pub use crate::proved::intervallum::interval::Interval;
pub use crate::proved::intervallum::interval_set::{IntervalSet, ToIntervalSet};
pub use crate::proved::intervallum::ops::{
    Bot, Bounded, Cardinality, Collection, Complement, Contains, Difference, Disjoint, Empty,
    Entailment, Fits, Hull, Intersection, IntervalKind, IsEmpty, IsSingleton, Join, Meet, Overlap,
    ProperSubset, Range, ShrinkLeft, ShrinkRight, Singleton, StrictShrinkLeft, StrictShrinkRight,
    Subset, SymmetricDifference, ToInterval, Top, Union, Whole,
};
pub use crate::proved::intervallum::optional::Optional;
pub use crate::proved::intervallum::width::{SizeNumber, Width};
