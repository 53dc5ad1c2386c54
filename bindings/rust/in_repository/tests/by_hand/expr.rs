//! Expressions by example, with values that were worked out by hand.

mod answers;
mod faults;
mod shapes;

use crate::compare::{check_printed, set_of, sets_of};
use intervallum::proved::Global;
use intervallum::proved::interval_set::IntervalSet;
use intervallum::proved::ivl_expr::expr::{EvalFault, Expr, eval};
use intervallum::proved::width::Width;
use intervallum::rattle::boxed::Box;
use std::fmt::Display;

fn boxed<B: Width>(expr: Expr<B>) -> Box<Expr<B>> {
    let boxed = Box::new(Global, expr).ok();
    boxed.expect("memory is left")
}

fn add<B: Width>(a: Expr<B>, b: Expr<B>) -> Expr<B> {
    Expr::Add(boxed(a), boxed(b))
}

fn sub<B: Width>(a: Expr<B>, b: Expr<B>) -> Expr<B> {
    Expr::Sub(boxed(a), boxed(b))
}

fn mul<B: Width>(a: Expr<B>, b: Expr<B>) -> Expr<B> {
    Expr::Mul(boxed(a), boxed(b))
}

/// The answer of `eval` where the sets of the variables have these runs.
fn answer_of<B: Width>(expr: &Expr<B>, runs: &[&[(B, B)]]) -> Result<IntervalSet<B>, EvalFault> {
    eval(Global, expr, &sets_of(runs))
}

/// The set that `eval` answered.
fn answered<B: Width>(answer: Result<IntervalSet<B>, EvalFault>) -> IntervalSet<B> {
    answer.expect("the answer is a set")
}

/// The answer is printed as a text: that of the set, or that of the fault.
fn check_text<B: Width + Display>(expr: &Expr<B>, runs: &[&[(B, B)]], text: &str) {
    match answer_of(expr, runs) {
        Ok(set) => check_printed(&set, text),
        Err(fault) => check_printed(&fault, text),
    }
}

/// The answer is the set of the last pairs.
fn check_set<B: Width>(expr: &Expr<B>, runs: &[&[(B, B)]], pairs: &[(B, B)]) {
    let set = answered(answer_of(expr, runs));
    assert!(set == set_of(pairs));
}

/// The answer is this fault.
fn check_fault<B: Width>(expr: &Expr<B>, runs: &[&[(B, B)]], fault: EvalFault) {
    let is_told = match answer_of(expr, runs) {
        Ok(_) => false,
        Err(told) => told == fault,
    };
    assert!(is_told, "the answer is another");
}
