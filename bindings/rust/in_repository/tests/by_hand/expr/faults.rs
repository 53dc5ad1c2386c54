//! What is refused, which fault is told, and the texts of the faults.
use super::{add, check_fault, check_text, mul, sub};
use crate::compare::check_printed;
use intervallum::proved::AllocError;
use intervallum::proved::ivl_expr::expr::{EvalFault, Expr};

#[test]
fn the_leftmost_missing_variable() {
    let both = add(Expr::Var(4), Expr::Var(3));
    let none: [&[(i32, i32)]; 0] = [];
    check_text(&both, &none, "missing variable 4");
    check_fault(&both, &none, EvalFault::Missing(4));
}

// A set whose double is not in the range, and an empty one.
const HUNDRED_AND_NONE: [&[(i8, i8)]; 2] = [&[(100, 100)], &[]];

#[test]
fn a_missing_variable_before_all_else() {
    let left = add(Expr::Var(2), Expr::Var(0));
    check_text(&left, &HUNDRED_AND_NONE, "missing variable 2");
    // The sum on the left leaves the range.
    let twice = add(Expr::Var(0), Expr::Var(0));
    let right = add(twice, Expr::Var(2));
    check_text(&right, &HUNDRED_AND_NONE, "missing variable 2");
}

#[test]
fn a_node_that_leaves_the_range() {
    let twice = add(Expr::Var(0), Expr::Var(0));
    check_text(&twice, &HUNDRED_AND_NONE, "range");
    // A node is asked also where the set beside it is empty.
    let beside_none = mul(Expr::Var(1), twice);
    check_text(&beside_none, &HUNDRED_AND_NONE, "range");
    let square = mul(Expr::Var(0), Expr::Var(0));
    check_text(&square, &HUNDRED_AND_NONE, "range");
}

#[test]
fn a_constant_that_leaves_the_range() {
    check_text(&Expr::Const(-128), &HUNDRED_AND_NONE, "range");
    check_text(&Expr::Const(-127), &HUNDRED_AND_NONE, "[-127..-127]");
}

#[test]
fn a_node_below_one_that_would_fit() {
    let runs: [&[(u8, u8)]; 2] = [&[(1, 1)], &[(2, 2)]];
    // The value is 1 - 2 + 2 = 1, and 1 - 2 is not in the range.
    let difference = sub(Expr::Var(0), Expr::Var(1));
    let back = add(difference, Expr::Var(1));
    check_text(&back, &runs, "range");
    check_text(&Expr::Const(255), &runs, "range");
}

#[test]
fn texts_of_faults() {
    let texts = [
        (EvalFault::Missing(2), "missing variable 2"),
        (EvalFault::Range, "range"),
        (EvalFault::from(AllocError), "memory"),
    ];
    for (fault, text) in &texts {
        check_printed(fault, text);
    }
}
