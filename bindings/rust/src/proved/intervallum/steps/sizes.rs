// Written by bindings/rust/extract from crates/intervallum/src/steps/sizes.rt.
//! How many members two walks have in common.

#[allow(unused_imports)]
use crate::rattle::prelude::*;
use super::intersection::heads;
use super::walk::Walk;
use crate::proved::intervallum::interval_set::builder::grown;
use crate::proved::intervallum::ops::{Bounded, Cardinality, Intersection};
use crate::proved::intervallum::width::{SizeNumber, Width};

/// The number of common members of the runs left in two walks. Advances at most once for each of
/// these runs. Does not allocate.
pub(crate) fn common_size<B: Width>(mut first: Walk<'_, B>, mut second: Walk<'_, B>) -> B::Output {
    first.in_whole();
    let mut size = <B::Output as SizeNumber>::zero();
    'walk: while let Some(heads) = heads(&first, &second) {
        let (run, other) = heads;
        size = grown::<B>(size, run.intersection(&other).size());
        let ends_first = run.upper() <= other.upper();
        first.advance_if(ends_first);
        second.advance_if(!ends_first);
    }
    size
}
