//! The set of an expression.
use super::{add, answer_of, answered, check_set, check_text, mul, sub};
use crate::compare::{check, made};
use intervallum::proved::interval::Interval;
use intervallum::proved::interval_set::IntervalSet;
use intervallum::proved::ivl_expr::expr::{Expr, eval};
use intervallum::proved::ops::{Cardinality, Range};
use intervallum::proved::sweep::coalesce;
use intervallum::proved::{AllocError, Global};
use intervallum::rattle::vec::Vec;

#[test]
fn differences_are_exact() {
    let difference = sub(Expr::Var(0), Expr::Var(1));
    let runs: [&[(i32, i32)]; 2] = [&[(1, 2), (9, 9)], &[(0, 3)]];
    check_text(&difference, &runs, "{[-2..2][6..9]}");
}

/// The answer has this number of runs.
fn check_count(expr: &Expr<i32>, runs: &[&[(i32, i32)]], count: usize) {
    let set = answered(answer_of(expr, runs));
    check(set.interval_count(), count);
}

#[test]
fn products_join_the_products_of_two_runs() {
    let product = mul(Expr::Var(0), Expr::Var(1));
    let runs: [&[(i32, i32)]; 2] = [&[(1, 2), (5, 6)], &[(0, 0), (3, 4)]];
    check_text(&product, &runs, "{[0..0][3..8][15..24]}");
    check_count(&product, &runs, 3);
    // 1 and 2 lie between 0 * 3 and 1 * 3, and are no products.
    check_text(&product, &[&[(0, 1)], &[(3, 5)]], "[0..5]");
}

#[test]
fn a_variable_that_repeats_is_taken_as_two() {
    let square = mul(Expr::Var(0), Expr::Var(0));
    check_text(&square, &[&[(-2i32, 3)]], "[-6..9]");
    let sum = add(Expr::Var(0), Expr::Var(1));
    let second = sub(sum, Expr::Var(0));
    check_text(&second, &[&[(1i32, 2)], &[(5, 5)]], "[4..6]");
}

#[test]
fn an_empty_set_where_it_stands_and_elsewhere() {
    let runs: [&[(i32, i32)]; 2] = [&[(3, 3)], &[]];
    let more = add(Expr::Var(0), Expr::Const(1));
    check_text(&more, &runs, "[4..4]");
    let product = mul(Expr::Var(0), Expr::Var(1));
    check_text(&product, &runs, "{}");
}

#[test]
fn a_variable_and_a_constant_alone() {
    let runs: [&[(i32, i32)]; 1] = [&[(1, 2), (5, 6)]];
    check_text(&Expr::Var(0), &runs, "{[1..2][5..6]}");
    check_text(&Expr::Const(7), &runs, "[7..7]");
    check_set(&Expr::Var(0), &runs, runs[0]);
}

/// A hundred single numbers, 1000 apart.
fn far_apart(alloc: Global) -> Result<IntervalSet<i64>, AllocError> {
    let mut runs = Vec::new(alloc);
    for i in 0..100u32 {
        let number = 1000 * i64::from(i);
        runs.push(Interval::new(number, number))?;
    }
    coalesce(alloc, runs)
}

/// A hundred runs of two numbers, 10 apart.
fn close_by(alloc: Global) -> Result<IntervalSet<i64>, AllocError> {
    let mut runs = Vec::new(alloc);
    for i in 0..100u32 {
        let lower = 10 * i64::from(i);
        runs.push(Interval::new(lower, lower + 1))?;
    }
    coalesce(alloc, runs)
}

#[test]
fn a_sum_of_two_sets_of_a_hundred_runs() {
    let alloc = Global;
    let sets = [made(far_apart(alloc)), made(close_by(alloc))];
    let sum = add(Expr::Var(0), Expr::Var(1));
    let sums = answered(eval(alloc, &sum, &sets));
    check(sums.interval_count(), 10_000);
    check(sums.size(), 20_000u64);
}
