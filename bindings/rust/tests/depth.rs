//! Expressions as deep as a stack of 8 MB bears with room to spare, and searches far deeper on a small one.
use intervallum::proved::examples::*;
use intervallum::proved::intervallum::interval_set::IntervalSet;
use intervallum::proved::ivl_expr::{EvalFault, Expr, eval};
use intervallum::proved::ivl_search::search::{End, Limits, count, greatest, least, solutions};

const LEVELS: usize = 4_000;
// a free variable of i64 is cut into halves 58 times, and its least member is cut off the last 63 or 64
const CUTS_OF_ONE: usize = 59;
const FREE: usize = 1_700;
const CUTS: usize = CUTS_OF_ONE * FREE;

/// `x0 + 1 + 1 ..`, or `1 + (1 + (.. x0))`.
fn nested(is_left: bool) -> Expr<i64> {
    nested_by(is_left, LEVELS)
}

fn nested_by(is_left: bool, levels: usize) -> Expr<i64> {
    let mut expr = Expr::Var(0);
    for _ in 0..levels {
        let one = Box::new(Global, Expr::Const(1)).unwrap();
        let other = Box::new(Global, expr).unwrap();
        expr = if is_left { Expr::Add(other, one) } else { Expr::Add(one, other) };
    }
    expr
}

fn on_a_stack_of(bytes: usize, run: impl FnOnce() + Send + 'static) {
    std::thread::Builder::new().stack_size(bytes).spawn(run).unwrap().join().unwrap();
}

fn on_a_stack_of_8_mb(run: impl FnOnce() + Send + 'static) {
    on_a_stack_of(8 << 20, run);
}

#[test]
fn deep_expressions_are_evaluated_and_dropped() {
    for is_left in [true, false] {
        on_a_stack_of_8_mb(move || {
            let expr = nested(is_left);
            let sets = [IntervalSet::new(Global, 5, 9).unwrap()];
            let set = eval(Global, &expr, &sets).unwrap();
            assert!(set == IntervalSet::new(Global, 5 + LEVELS as i64, 9 + LEVELS as i64).unwrap());
            assert!(expr.occurs(0) && !expr.occurs(1) && expr.read_once() && !expr.has_product());
        });
    }
}

/// What the docs of the type say that the 2 MB of a thread bear, in a build without optimization.
#[test]
fn a_thousand_levels_take_the_stack_of_a_thread() {
    on_a_stack_of(2 << 20, || {
        let sets = [IntervalSet::new(Global, 5, 9).unwrap()];
        for is_left in [true, false] {
            assert!(
                eval(Global, &nested_by(is_left, 1_000), &sets).unwrap()
                    == IntervalSet::new(Global, 1_005, 1_009).unwrap()
            );
        }
    });
}

#[test]
fn a_missing_variable_is_found_at_the_bottom() {
    for is_left in [true, false] {
        on_a_stack_of_8_mb(move || {
            assert!(matches!(eval(Global, &nested(is_left), &[]), Err(EvalFault::Missing(0))));
        });
    }
}

/// One branch of so many cuts: no constraint narrows any of these, and a cut narrows one alone.
fn free_variables(count: usize) -> Vec<IntervalSet<i64>> {
    (0..count).map(|_| IntervalSet::new(Global, i64::MIN + 1, i64::MAX).unwrap()).collect()
}

#[test]
fn a_branch_of_100_000_cuts_takes_a_small_stack() {
    on_a_stack_of(512 << 10, || {
        let limits = Limits { solutions: 1, nodes: CUTS as u64 + 1 };
        let found = solutions(Global, &free_variables(FREE), &[], limits).unwrap();
        assert!(matches!(found.end, End::Nodes) && found.points.len() == 1);
        assert!(found.points[0].as_slice() == [i64::MIN + 1; FREE]);
        // a tenth of that for `count`, which is the same search
        let limits = Limits { solutions: 3, nodes: CUTS as u64 / 10 + 5 };
        assert!(matches!(count(Global, &free_variables(FREE / 10), &[], limits).unwrap(), (3, End::Nodes)));
    });
}

#[test]
fn the_best_solution_at_the_end_of_a_branch_of_100_000_cuts_takes_a_small_stack() {
    on_a_stack_of(512 << 10, || {
        let limits = Limits { solutions: 1_000, nodes: 2 * CUTS as u64 };
        let best = greatest(Global, &free_variables(FREE), &[], 7, limits).unwrap();
        assert!(matches!(best.end, End::All) && best.point.unwrap().as_slice() == [i64::MAX; FREE]);
        // a tenth of that for `least`
        let best = least(Global, &free_variables(FREE / 10), &[], 7, limits).unwrap();
        assert!(matches!(best.end, End::All) && best.point.unwrap().as_slice() == [i64::MIN + 1; FREE / 10]);
    });
}
