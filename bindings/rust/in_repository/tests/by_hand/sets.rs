//! Calls that allocate, at a size far above each constant in the code.

use crate::compare::{check_all, check_same, made, set_of};
use intervallum::proved::interval::Interval;
use intervallum::proved::interval_set::IntervalSet;
use intervallum::proved::ops::{
    Complement, Difference, Fits, Intersection, Range, ShrinkLeft, SymmetricDifference, Union,
};
use intervallum::proved::{AllocError, Global};
use intervallum::rattle::vec::Vec;

/// How many runs the sets have.
const COUNT: u16 = 5000;

/// The first numbers that are four times another.
fn fourths() -> IntervalSet<i32> {
    let mut pairs = made(Vec::with_capacity(Global, COUNT as usize));
    for i in 0..COUNT {
        let is_pushed = pairs.push((4 * i as i32, 4 * i as i32)).is_ok();
        assert!(is_pushed, "memory is left");
    }
    set_of(pairs.as_slice())
}

fn count(set: Result<IntervalSet<i32>, AllocError>) -> usize {
    made(set).interval_count()
}

#[test]
fn operations() {
    let a = fourths();
    assert!(a.fits_add(&1), "the sums fit");
    let b = made(&a + 1);
    let counts = [
        count(a.union(&b)),
        count(a.intersection(&b)),
        count(a.difference(&b)),
        count(a.symmetric_difference(&b)),
        count(a.complement()),
        count(a.shrink_left(2)),
        count(a.gaps_within(&Interval::new(1, 19_995))),
    ];
    check_all(&counts, &[5000, 0, 5000, 5000, 5001, 4999, 4999]);
}

#[test]
fn items_and_sums() {
    let a = fourths();
    let mut set = IntervalSet::empty(Global);
    made(set.extend(made(a.try_clone()).into_iter()));
    check_same(&set, &a);
    let ends = set_of(&[(0, 0), (20_000, 20_000)]);
    assert!(a.fits_add(&ends), "the sums fit");
    check_all(&[count(&a + &ends)], &[10_000]);
}
