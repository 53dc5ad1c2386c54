//! Calls that no line can express, with values that were worked out by hand: the forms of an operand, laws of unions, sets
//! from arrays and iterators, runs from both ends, values outside the range, and the texts of `Debug`.
use crate::bounds::{Bit, Narrow};
use intervallum::proved::interval_set::ToIntervalSet;
use intervallum::proved::kleene::SKleene;
use intervallum::proved::optional::Optional;
use intervallum::proved::prelude::*;
use intervallum::proved::steps::{Place, Walk};
use intervallum::proved::sweep::Op;
use intervallum::proved::width::Width;
use intervallum::proved::{AllocError, Global};

/// Each operand may be owned or borrowed.
macro_rules! assert_forms_agree {
    ($a:expr, $operator:tt, $b:expr, $answer:expr) => {
        let (a, b) = ($a, $b);
        assert_eq!([a $operator b, a $operator &b, &a $operator b, &a $operator &b], [$answer; 4]);
    };
}

#[test]
fn forms_with_an_interval_agree() {
    let (a, b) = (Interval::new(-5i16, 10), Interval::new(-30i16, -20));
    assert!(a.fits_add(&b) && a.fits_sub(&b) && a.fits_mul(&b));
    assert_forms_agree!(a, +, b, Interval::new(-35, -10));
    assert_forms_agree!(a, -, b, Interval::new(15, 40));
    assert_forms_agree!(a, *, b, Interval::new(-300, 150));
}

#[test]
fn forms_with_a_value_agree() {
    let a = Interval::new(1u16, 2);
    assert!(a.fits_add(&3) && a.fits_sub(&1) && a.fits_mul(&3));
    assert_forms_agree!(a, +, 3, Interval::new(4, 5));
    assert_forms_agree!(a, -, 1, Interval::new(0, 1));
    assert_forms_agree!(a, *, 3, Interval::new(3, 6));
}

#[test]
fn only_the_numbers_of_a_range_are_those_of_a_value() {
    assert_eq!(Narrow::from_number(101), None);
    assert_eq!(Narrow::from_number(-100), Some(Narrow(-100)));
    assert_eq!(Bit::from_number(2), None);
}

#[test]
fn a_value_on_the_left_of_a_set_and_laws_of_unions() -> Result<(), AllocError> {
    let a = [(1i64, 2), (6, 10)].to_interval_set(Global)?;
    let b = (4, 6).to_interval_set(Global)?;
    let united = a.union(&b)?;
    assert!(2.overlap(&a) && !3.overlap(&a));
    assert!(united == b.union(&a)? && a.union(&a)? == a);
    assert!(united.contains(&5) && !united.contains(&3));
    assert_eq!(united, [(1, 2), (4, 10)].to_interval_set(Global)?);
    Ok(())
}

/// Both ends of the range on the left of a set, and a value outside the range.
fn check_ends<B: Width + Overlap<IntervalSet<B>>>(outside: B) -> Result<(), AllocError> {
    let (low, high) = (B::min_value(), B::max_value());
    let all = IntervalSet::<B>::whole(Global)?;
    let between = all.strict_shrink_left(low)?.strict_shrink_right(high)?;
    assert!(low.overlap(&all) && high.overlap(&all) && !outside.overlap(&all));
    assert!(!low.overlap(&between) && !high.overlap(&between));
    Ok(())
}

#[test]
fn ends_of_each_type() -> Result<(), AllocError> {
    check_ends(i8::MIN)?;
    check_ends(i16::MIN)?;
    check_ends(i32::MIN)?;
    check_ends(i64::MIN)?;
    check_ends(isize::MIN)?;
    check_ends(u8::MAX)?;
    check_ends(u16::MAX)?;
    check_ends(u32::MAX)?;
    check_ends(u64::MAX)?;
    check_ends(usize::MAX)
}

#[test]
fn sets_from_arrays_a_crossed_pair_and_an_iterator() -> Result<(), AllocError> {
    let none: [(i32, i32); 0] = [];
    let none = none.to_interval_set(Global)?;
    let one = [(3i32, 8), (2, 5)].to_interval_set(Global)?;
    let crossed = (9i32, 4).to_interval_set(Global)?;
    let mut set = IntervalSet::new(Global, 1i32, 2)?;
    let list = [Interval::new(7i32, 9), Interval::new(3, 4)];
    set.extend(list.iter().copied())?;
    assert_eq!(format!("{none} {one} {crossed} {set}"), "{} [2..8] {} {[1..4][7..9]}");
    Ok(())
}

#[test]
fn runs_from_both_ends_and_a_walk_over_no_run() -> Result<(), AllocError> {
    let none = IntervalSet::<i32>::empty(Global);
    assert!(Walk::new(&none).peek().is_none());
    let mut runs = [(4i32, 4), (8, 9)].to_interval_set(Global)?.into_iter();
    let ends = (runs.next_back(), runs.next());
    assert_eq!(ends, (Some(Interval::new(8, 9)), Some(Interval::new(4, 4))));
    assert!(runs.next().is_none() && runs.next_back().is_none());
    Ok(())
}

#[test]
fn texts_of_debug() -> Result<(), AllocError> {
    let set = [(1i32, 2), (5, 5)].to_interval_set(Global)?;
    let none = IntervalSet::<i32>::empty(Global);
    let runs = "[Interval { lb: 1, ub: 2 }, Interval { lb: 5, ub: 5 }]";
    assert_eq!(format!("{set:?}"), format!("IntervalSet {{ intervals: {runs}, size: 3 }}"));
    assert_eq!(format!("{none:?}"), "IntervalSet { intervals: [], size: 0 }");
    let others = (SKleene::Unknown, Place::Gap(3), Op::Product, Optional::singleton(-7i32));
    assert_eq!(format!("{others:?}"), "(Unknown, Gap(3), Product, Optional { value: Some(-7) })");
    Ok(())
}
