//! Narrowing in rounds.
use super::{check_domains, store_of, sum};
use intervallum::proved::ivl_store::store::{Constraint, Store, StoreFault};
use intervallum::proved::width::Width;
use std::fmt::Display;

// The rounds that are let, the answer to them, and the texts of the domains that they leave.
type Row = (usize, Result<bool, StoreFault>, &'static [&'static str]);

/// The rounds of a row narrow the domains to its texts, and their answer is as it is wanted.
fn check_row<B: Width + Display>(store: &mut Store<B>, constraints: &[Constraint], &(rounds, answer, texts): &Row) {
    assert_eq!(store.propagate(constraints, rounds), answer);
    check_domains(store, texts);
}

/// The rounds of the rows narrow the domains one after the other, each as its row has it.
fn check_rows<B: Width + Display>(domains: &[&[(B, B)]], constraints: &[Constraint], rows: &[Row]) {
    let mut store = store_of(domains);
    for row in rows {
        check_row(&mut store, constraints, row);
    }
}

const THREE_DOMAINS: [&[(i32, i32)]; 3] = [&[(0, 10)], &[(3, 4)], &[(5, 6)]];

// Each row is of a store of its own.
const ONE_ROUND: [Row; 3] = [
    (0, Ok(false), &["[0..10]", "[3..4]", "[5..6]"]),
    (1, Ok(false), &["[1..3]", "[3..4]", "[5..6]"]),
    (2, Ok(true), &["[1..3]", "[3..4]", "[5..6]"]),
];

#[test]
fn one_round_and_one_that_changes_nothing() {
    for row in &ONE_ROUND {
        check_rows(&THREE_DOMAINS, &[sum([0, 1, 2])], &[*row]);
    }
}

const TWO_DIGITS_AND_ONE: [&[(i32, i32)]; 3] = [&[(0, 9)], &[(0, 9)], &[(1, 1)]];

// Each row is of a store of its own.
const A_MEMBER_A_ROUND: [Row; 4] = [
    (1, Ok(false), &["[2..8]", "[1..7]", "[1..1]"]),
    (2, Ok(false), &["[4..6]", "[3..5]", "[1..1]"]),
    (3, Ok(false), &["{}", "{}", "{}"]),
    (4, Ok(true), &["{}", "{}", "{}"]),
];

#[test]
fn each_round_takes_a_member() {
    // a + 1 = b and b + 1 = a
    let constraints = [sum([0, 2, 1]), sum([1, 2, 0])];
    for row in &A_MEMBER_A_ROUND {
        check_rows(&TWO_DIGITS_AND_ONE, &constraints, &[*row]);
    }
}

const TWO_CALLS: [Row; 2] = [(3, Ok(false), &["{}", "{}", "{}"]), (1, Ok(true), &["{}", "{}", "{}"])];

#[test]
fn a_second_call_goes_on_from_the_first() {
    // a + 1 = b and b + 1 = a
    let constraints = [sum([0, 2, 1]), sum([1, 2, 0])];
    check_rows(&TWO_DIGITS_AND_ONE, &constraints, &TWO_CALLS);
}

const NO_COMMON_SOLUTION: [&[(i32, i32)]; 4] = [&[(0, 1)], &[(0, 1)], &[(1, 1)], &[(0, 0)]];

const FIXED: [Row; 1] = [(1, Ok(true), &["[0..1]", "[0..1]", "[1..1]", "[0..0]"])];

#[test]
fn fixed_though_no_common_solution_exists() {
    // x + y = 1 and x + 0 = y, for x and y from 0 to 1
    let (first, second) = (sum([0, 1, 2]), sum([0, 3, 1]));
    for constraints in &[[first, second], [second, first]] {
        check_rows(&NO_COMMON_SOLUTION, constraints, &FIXED);
    }
}

const NINE_ROUNDS: [Row; 1] = [(9, Ok(true), &["[0..5]", "[0..5]"])];

#[test]
fn a_variable_in_two_places_is_narrowed_again() {
    // x + x = y: x keeps the members that are one of y less one of x.
    let domains: [&[(i32, i32)]; 2] = [&[(0, 9)], &[(0, 5)]];
    check_rows(&domains, &[sum([0, 0, 1])], &NINE_ROUNDS);
}

const UNKNOWN: [Row; 2] = [
    (5, Err(StoreFault::Variable(7)), &["[0..10]", "[3..4]", "[5..6]"]),
    (0, Err(StoreFault::Variable(7)), &["[0..10]", "[3..4]", "[5..6]"]),
];

#[test]
fn all_indexes_are_tested_first() {
    let constraints = [sum([0, 1, 2]), sum([0, 7, 9]), sum([8, 0, 0])];
    check_rows(&THREE_DOMAINS, &constraints, &UNKNOWN);
}

const NO_DOMAINS: [&[(u8, u8)]; 0] = [];

const NO_CONSTRAINT: [Row; 2] = [(0, Ok(false), &[]), (1, Ok(true), &[])];

const NO_VARIABLE: [Row; 1] = [(1, Err(StoreFault::Variable(0)), &[])];

#[test]
fn no_constraint_and_no_variable() {
    check_rows(&NO_DOMAINS, &[], &NO_CONSTRAINT);
    check_rows(&NO_DOMAINS, &[sum([0, 0, 0])], &NO_VARIABLE);
}
