// Written by bindings/rust/extract from crates/ivl_buffers/src/products.rt.
//! Products of the members of two lists.

#[allow(unused_imports)]
use crate::rattle::prelude::*;
use crate::proved::ivl_buffers::pair::Pair;
use crate::proved::ivl_buffers::reading::{are_inside, set_of};
use crate::proved::ivl_buffers::writing::{OUT_OF_MEMORY, OUT_OF_RANGE, PRODUCT_OUT_OF_RANGE, tell};
use crate::proved::intervallum::interval_set::IntervalSet;
use crate::proved::intervallum::ops::Fits;
use crate::proved::intervallum::width::Width;
use crate::rattle::std::alloc::{AllocError, Global};

/// Makes the set of the products, and writes its runs. Returns their number or an error code.
/// `O(n m log (n m))` for `n` and `m` pairs.
///
/// # Proved
///
/// The result is `out_of_range` exactly when a member is outside the range; else `product_out_of_range` only if a product of a member of each is, or `out_of_memory`, or the runs of the products are written if there is room, and their number is returned. With a code nothing is written.
///
/// ```text
/// ensures { AnswersProducts R.Bound.whole (Covers (map R.pair a.now)) (Covers (map R.pair b.now)) (map R.pair out.old) (map R.pair out.new) result }
/// ```
///
/// Words: [`AnswersProducts`](crate::definitions#AnswersProducts), [`Covers`](crate::definitions#Covers).
pub fn products<R: Pair>(alloc: Global, a: &[R], b: &[R], out: &mut [R]) -> i64 {
    if !are_inside(a) || !are_inside(b) {
        return OUT_OF_RANGE;
    }
    match multiplied(alloc, a, b) {
        Ok(Some(set)) => tell(Ok(set), out),
        Ok(None) => PRODUCT_OUT_OF_RANGE,
        Err(_) => OUT_OF_MEMORY,
    }
}

/// The set of the products; `None` if some product is outside the range.
fn multiplied<R: Pair>(
    alloc: Global,
    a: &[R],
    b: &[R],
) -> Result<Option<IntervalSet<R::Bound>>, AllocError> {
    let left = set_of(alloc, a)?;
    let right = set_of(alloc, b)?;
    product(&left, &right)
}

/// The product of two sets; `None` if some product of members is outside the range.
fn product<B: Width>(
    left: &IntervalSet<B>,
    right: &IntervalSet<B>,
) -> Result<Option<IntervalSet<B>>, AllocError> {
    if !left.fits_mul(right) {
        return Ok(None);
    }
    Ok(Some((left * right)?))
}
