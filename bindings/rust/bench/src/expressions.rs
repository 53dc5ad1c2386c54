//! Expressions that are measured, and the sets of their variables.

use crate::inputs::Pair;
use intervallum::proved::interval_set::IntervalSet;
use intervallum::proved::ivl_expr::{EvalFault, Expr, eval};
use intervallum::proved::{AllocError, Global};
use intervallum::rattle::boxed::Box;
use intervallum::rattle::vec::Vec;

/// How many single runs the chain sums.
const LINKS: u32 = 50;

/// The sum of two sets, and the sum of many single runs.
pub struct Expressions {
    pub sum: Evaluation,
    pub chain: Evaluation,
}

impl Expressions {
    pub fn new(alloc: Global, pair: &Pair) -> Result<Expressions, AllocError> {
        Ok(Expressions {
            sum: Evaluation::new(sum(alloc, Expr::Var(0), Expr::Var(1)), operands(alloc, pair))?,
            chain: Evaluation::new(chain(alloc), links(alloc))?,
        })
    }
}

/// An expression, and the sets of its variables.
pub struct Evaluation {
    expr: Expr<i64>,
    sets: Vec<IntervalSet<i64>>,
}

impl Evaluation {
    fn new(
        expr: Result<Expr<i64>, AllocError>,
        sets: Result<Vec<IntervalSet<i64>>, AllocError>,
    ) -> Result<Evaluation, AllocError> {
        Ok(Evaluation { expr: expr?, sets: sets? })
    }

    /// The set of the expression; none where it does not fit.
    pub fn eval(&self, alloc: Global) -> Result<Option<IntervalSet<i64>>, AllocError> {
        match eval(alloc, &self.expr, &self.sets) {
            Ok(set) => Ok(Some(set)),
            Err(EvalFault::Memory) => Err(AllocError),
            Err(_) => Ok(None),
        }
    }
}

fn sum(alloc: Global, a: Expr<i64>, b: Expr<i64>) -> Result<Expr<i64>, AllocError> {
    Ok(Expr::Add(Box::new(alloc, a)?, Box::new(alloc, b)?))
}

/// Copies of both sets.
fn operands(alloc: Global, pair: &Pair) -> Result<Vec<IntervalSet<i64>>, AllocError> {
    Vec::from_array(alloc, [pair.a.try_clone()?, pair.b.try_clone()?])
}

/// The sum of the variables, from the left.
fn chain(alloc: Global) -> Result<Expr<i64>, AllocError> {
    let mut chain = Expr::Var(0);
    for i in 1..LINKS {
        chain = sum(alloc, chain, Expr::Var(i as usize))?;
    }
    Ok(chain)
}

/// A run for each variable.
fn links(alloc: Global) -> Result<Vec<IntervalSet<i64>>, AllocError> {
    let mut links = Vec::new(alloc);
    for i in 0..LINKS {
        let lower = i64::from(i);
        links.push(IntervalSet::new(alloc, lower, lower + 1)?)?;
    }
    Ok(links)
}
