//! Narrowing once.
use super::{check_domains, store_of, sum};
use crate::compare::check_printed;
use intervallum::proved::ivl_store::store::{Constraint, Store, StoreFault};
use intervallum::proved::width::Width;
use std::fmt::Display;

// The variables of a constraint, the answer to it, and the texts of the domains that it leaves.
type Row = ([usize; 3], Result<bool, StoreFault>, &'static [&'static str]);

/// The constraint of a row narrows the domains to its texts, and its answer is as it is wanted.
fn check_row<B: Width + Display>(store: &mut Store<B>, &(variables, answer, texts): &Row) {
    assert_eq!(store.narrow(&sum(variables)), answer);
    check_domains(store, texts);
}

/// The constraints of the rows narrow the domains one after the other, each as its row has it.
fn check_rows<B: Width + Display>(domains: &[&[(B, B)]], rows: &[Row]) {
    let mut store = store_of(domains);
    for row in rows {
        check_row(&mut store, row);
    }
}

// The runs of three domains, and what one constraint makes of them.
const THREE_VARIABLES: [([&[(i32, i32)]; 3], Row); 3] = [
    ([&[(0, 10)], &[(3, 4)], &[(5, 6)]], ([0, 1, 2], Ok(true), &["[1..3]", "[3..4]", "[5..6]"])),
    (
        [&[(0, 0), (5, 5)], &[(0, 1)], &[(1, 1), (6, 9)]],
        ([0, 1, 2], Ok(true), &["{[0..0][5..5]}", "[1..1]", "{[1..1][6..6]}"]),
    ),
    ([&[(1, 3)], &[(2, 4)], &[(5, 5)]], ([0, 1, 2], Ok(false), &["[1..3]", "[2..4]", "[5..5]"])),
];

#[test]
fn three_variables() {
    for (domains, row) in &THREE_VARIABLES {
        check_rows(domains, &[*row]);
    }
}

const ENDS_OF_U8: [&[(u8, u8)]; 3] = [&[(250, 254)], &[(4, 10)], &[(0, 254)]];

const AT_THE_ENDS_OF_U8: [Row; 1] = [([0, 1, 2], Ok(true), &["[250..250]", "[4..4]", "[254..254]"])];

#[test]
fn ends_of_unsigned_bounds() {
    check_rows(&ENDS_OF_U8, &AT_THE_ENDS_OF_U8);
}

const LEAST: i64 = i64::MIN + 1;

const ENDS_OF_I64: [&[(i64, i64)]; 3] = [&[(LEAST, -1), (5, 5)], &[(LEAST, -1)], &[(LEAST, LEAST)]];

const AT_THE_ENDS_OF_I64: [Row; 1] = [(
    [0, 1, 2],
    Ok(true),
    &["[-9223372036854775806..-1]", "[-9223372036854775806..-1]", "[-9223372036854775807..-9223372036854775807]"],
)];

#[test]
fn ends_of_wide_bounds() {
    check_rows(&ENDS_OF_I64, &AT_THE_ENDS_OF_I64);
}

const TWO_PLACES: [([&[(i32, i32)]; 2], Row); 2] = [
    // No solution exists, and narrowing does not find out.
    ([&[(1, 2)], &[(3, 3)]], ([0, 0, 1], Ok(false), &["[1..2]", "[3..3]"])),
    ([&[(0, 0), (5, 5)], &[(2, 5)]], ([0, 1, 0], Ok(true), &["[5..5]", "[5..5]"])),
];

#[test]
fn a_variable_in_two_places() {
    for (domains, row) in &TWO_PLACES {
        check_rows(domains, &[*row]);
    }
}

const ONE_IS_EMPTY: [&[(i32, i32)]; 4] = [&[], &[(3, 4), (8, 9)], &[(5, 6)], &[(7, 7)]];

const EMPTIED: [Row; 3] = [
    ([0, 1, 2], Ok(true), &["{}", "{}", "{}", "[7..7]"]),
    ([0, 1, 2], Ok(false), &["{}", "{}", "{}", "[7..7]"]),
    ([3, 3, 0], Ok(true), &["{}", "{}", "{}", "{}"]),
];

#[test]
fn a_domain_that_another_empties() {
    check_rows(&ONE_IS_EMPTY, &EMPTIED);
}

const THREE_DOMAINS: [&[(i32, i32)]; 3] = [&[(0, 10)], &[(3, 4)], &[(5, 6)]];

const UNKNOWN: [Row; 3] = [
    ([3, 8, 9], Err(StoreFault::Variable(3)), &["[0..10]", "[3..4]", "[5..6]"]),
    ([0, 8, 9], Err(StoreFault::Variable(8)), &["[0..10]", "[3..4]", "[5..6]"]),
    ([0, 1, 9], Err(StoreFault::Variable(9)), &["[0..10]", "[3..4]", "[5..6]"]),
];

#[test]
fn unknown_variables() {
    check_rows(&THREE_DOMAINS, &UNKNOWN);
}

#[test]
fn texts_of_faults() {
    check_printed(&StoreFault::Variable(7), "no variable 7");
    check_printed(&StoreFault::Memory, "memory");
}

const DISTINCT: [([usize; 3], bool); 5] =
    [([0, 1, 2], true), ([0, 0, 1], false), ([0, 1, 0], false), ([1, 0, 0], false), ([4, 4, 4], false)];

#[test]
fn which_constraints_are_distinct() {
    for &(variables, is_distinct) in &DISTINCT {
        let constraint = sum(variables);
        let same = Constraint { ..constraint };
        assert!(constraint.distinct() == is_distinct && constraint == same);
    }
}
