//! Sums and differences in windows.
use super::{in_window, interval_of};
use crate::compare::{check_printed, check_same, made, set_of};
use intervallum::proved::interval::Interval;
use intervallum::proved::interval_set::IntervalSet;
use intervallum::proved::ivl_within::within::{Combined, add_within, pair_in_window, results_in_set, sub_within};
use intervallum::proved::ops::{Intersection, IsEmpty, Whole};
use intervallum::proved::width::Width;
use intervallum::proved::{AllocError, Global};

// Two sets, by their runs.
type Sets = [&'static [(i16, i16)]; 2];

// A window, and the text of the sums, or the differences, that are in it.
type Row = ((i16, i16), &'static str);

// The sums are {[1..2][11..14][50..72][91..97][140..155]}, and the differences
// {[-60..-38][-2..-1][8..11][30..45][88..94]}.
const SEVERAL_RUNS: Sets = [&[(0, 0), (10, 12), (90, 95)], &[(1, 2), (50, 60)]];

const SUMS: [Row; 10] = [
    ((-100, 200), "{[1..2][11..14][50..72][91..97][140..155]}"),
    ((1, 155), "{[1..2][11..14][50..72][91..97][140..155]}"),
    ((15, 49), "{}"),
    ((156, 300), "{}"),
    ((-9, 0), "{}"),
    ((14, 50), "{[14..14][50..50]}"),
    ((12, 62), "{[12..14][50..62]}"),
    ((2, 11), "{[2..2][11..11]}"),
    ((60, 60), "[60..60]"),
    ((62, 12), "{}"),
];

const DIFFERENCES: [Row; 10] = [
    ((-100, 100), "{[-60..-38][-2..-1][8..11][30..45][88..94]}"),
    ((-60, 94), "{[-60..-38][-2..-1][8..11][30..45][88..94]}"),
    ((-37, -3), "{}"),
    ((95, 300), "{}"),
    ((-99, -61), "{}"),
    ((-38, -2), "{[-38..-38][-2..-2]}"),
    ((0, 39), "{[8..11][30..39]}"),
    ((11, 30), "{[11..11][30..30]}"),
    ((-50, -50), "[-50..-50]"),
    ((39, 0), "{}"),
];

// The sums are [13..25], and the differences [-17..-5].
const ONE_RUN_EACH: Sets = [&[(3, 5)], &[(10, 20)]];

const SUMS_OF_ONE_RUN_EACH: [Row; 5] =
    [((0, 12), "{}"), ((0, 13), "[13..13]"), ((14, 18), "[14..18]"), ((20, 40), "[20..25]"), ((26, 40), "{}")];

const DIFFERENCES_OF_ONE_RUN_EACH: [Row; 3] = [((-5, 9), "[-5..-5]"), ((-17, -17), "[-17..-17]"), ((-4, 9), "{}")];

/// What is in each window is printed as the text of its row.
fn check_rows(op: Combined, [a, b]: Sets, rows: &[Row]) {
    let (a, b) = (set_of(a), set_of(b));
    for &(bounds, text) in rows {
        check_printed(&in_window(op, &a, &b, interval_of(bounds)), text);
    }
}

#[test]
fn several_runs() {
    let [a, b] = SEVERAL_RUNS;
    check_rows(Combined::Sum, [a, b], &SUMS);
    check_rows(Combined::Sum, [b, a], &SUMS);
    check_rows(Combined::Difference, [a, b], &DIFFERENCES);
}

#[test]
fn one_run_each() {
    check_rows(Combined::Sum, ONE_RUN_EACH, &SUMS_OF_ONE_RUN_EACH);
    check_rows(Combined::Difference, ONE_RUN_EACH, &DIFFERENCES_OF_ONE_RUN_EACH);
}

/// What is in a window is the set of the last pairs.
fn check_set<B: Width>(op: Combined, [a, b]: [&[(B, B)]; 2], window: Interval<B>, wanted: &[(B, B)]) {
    let found = in_window(op, &set_of(a), &set_of(b), window);
    check_same(&found, &set_of(wanted));
}

// At the ends of the range, where the sums and differences leave it.
#[test]
fn ends_of_unsigned_bounds() {
    let (a, b): (&[(u8, u8)], &[(u8, u8)]) = (&[(250, 254)], &[(0, 1), (10, 10)]);
    let window = interval_of((252, 254));
    check_set(Combined::Sum, [a, b], window, &[(252, 254)]);
    check_set(Combined::Sum, [a, b], Interval::whole(), a);
    check_set(Combined::Difference, [b, a], Interval::whole(), &[]);
    // A crossed window may have bounds that are outside the range.
    let crossed = interval_of((255, 0));
    check_set(Combined::Sum, [a, b], crossed, &[]);
}

#[test]
fn ends_of_signed_bounds() {
    let (a, b): (&[(i8, i8)], &[(i8, i8)]) = (&[(-127, -127), (0, 0)], &[(-1, 0)]);
    let window = interval_of((-127, -2));
    check_set(Combined::Sum, [a, b], window, &[(-127, -127)]);
    check_set(Combined::Sum, [&[], a], Interval::whole(), &[]);
    check_set(Combined::Difference, [a, &[]], Interval::whole(), &[]);
}

// The runs of a set, and the text of its members among the sums of `SEVERAL_RUNS`, or among the
// differences.
type Results = (&'static [(i16, i16)], Combined, &'static str);

const RESULTS: [Results; 5] = [
    (&[(0, 3), (11, 20), (70, 71), (100, 200)], Combined::Sum, "{[1..2][11..14][70..71][140..155]}"),
    (&[(0, 3), (11, 20), (70, 71), (100, 200)], Combined::Difference, "[11..11]"),
    (&[(60, 93)], Combined::Sum, "{[60..72][91..93]}"),
    (&[(60, 93)], Combined::Difference, "[88..93]"),
    (&[], Combined::Sum, "{}"),
];

// The same among the sums of two multiples of 6 from 0 to 378, or among the differences: thousands of
// pairs of runs, and few runs that they are looked for in.
const OF_MULTIPLES: [Results; 4] = [
    (&[(7, 7), (30, 37), (755, 757)], Combined::Sum, "{[30..30][36..36][756..756]}"),
    (&[(-7, -5), (1, 5), (377, 390)], Combined::Difference, "{[-6..-6][378..378]}"),
    (&[(1, 1), (3, 3), (5, 6)], Combined::Difference, "[6..6]"),
    (&[(1, 1), (3, 3)], Combined::Sum, "{}"),
];

/// The results in the set of a row are printed as its text.
fn check_results([a, b]: [&IntervalSet<i16>; 2], &(x, op, text): &Results) {
    let members = results_in_set(&set_of(x), a, b, op);
    check_printed(&made(members), text);
}

#[test]
fn members_that_are_results() {
    let [a, b] = SEVERAL_RUNS;
    let sets = [&set_of(a), &set_of(b)];
    for row in &RESULTS {
        check_results(sets, row);
    }
}

/// The multiples of 6 from 0 to 378, each a run.
fn multiples() -> IntervalSet<i16> {
    let mut set = set_of(&[(0, 0)]);
    for &step in &[6i16, 12, 24, 48, 96, 192] {
        let (sums, _) = made(add_within(&set, &set_of(&[(0, 0), (step, step)])));
        set = sums;
    }
    set
}

#[test]
fn few_members_among_many_results() {
    let set = &multiples();
    for row in &OF_MULTIPLES {
        check_results([set, set], row);
    }
}

/// What lies in a window is the members of `all`, clipped.
fn check_clipped(op: Combined, [a, b, all]: [&IntervalSet<i8>; 3], bounds: (i8, i8)) {
    let clipped = made(all.intersection(&set_of(&[bounds])));
    let found = in_window(op, a, b, interval_of(bounds));
    check_same(&found, &clipped);
}

// What lies in a window is what `add_within` and `sub_within` answer, clipped.
#[test]
fn every_window() {
    let a = &set_of(&[(-9, -7), (-2, -2), (0, 1), (6, 9)]);
    let b = &set_of(&[(-8, -8), (-5, -3), (4, 4), (7, 8)]);
    let (sums, _) = &made(add_within(a, b));
    let (differences, _) = &made(sub_within(a, b));
    for lower in -20i8..20 {
        for upper in -20i8..20 {
            check_clipped(Combined::Sum, [a, b, sums], (lower, upper));
            check_clipped(Combined::Difference, [a, b, differences], (lower, upper));
        }
    }
}

/// The answer is this set, and tells whether it is cut.
fn check_cut(answer: Result<(IntervalSet<i8>, bool), AllocError>, wanted: &IntervalSet<i8>, is_wanted_cut: bool) {
    let (found, is_cut) = made(answer);
    assert!(found == *wanted && is_cut == is_wanted_cut);
}

// The empty set, and the whole range.
#[test]
fn sets_with_no_run() {
    let none = &IntervalSet::empty(Global);
    let whole = &set_of(&[(-127, 127)]);
    check_cut(add_within(none, whole), none, false);
    check_cut(sub_within(whole, none), none, false);
    check_cut(add_within(whole, whole), whole, true);
}

/// `pair_in_window`, unless an interval is empty.
fn pair_if_filled(a: Interval<i16>, b: Interval<i16>, op: Combined, window: Interval<i16>) -> Option<Interval<i16>> {
    if a.is_empty() || b.is_empty() || window.is_empty() {
        return None;
    }
    Some(pair_in_window(a, b, op, window))
}

/// The sums, or the differences, of [3..5] and [10..20] that are in a window.
fn check_pair(op: Combined, bounds: (i16, i16), wanted: Option<Interval<i16>>) {
    let (a, b) = (interval_of((3, 5)), interval_of((10, 20)));
    assert!(pair_if_filled(a, b, op, interval_of(bounds)) == wanted);
}

// The sums are [13..25], and the differences [-17..-5].
#[test]
fn two_intervals() {
    let (below, within) = (interval_of((-9, -5)), interval_of((14, 18)));
    check_pair(Combined::Sum, (14, 18), Some(within));
    check_pair(Combined::Difference, (-9, 40), Some(below));
    check_pair(Combined::Sum, (18, 14), None);
}
