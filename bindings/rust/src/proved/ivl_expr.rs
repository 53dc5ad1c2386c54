// Written by bindings/rust/extract from crates/ivl_expr/src/lib.rt.
//! Expressions over interval sets, for range analysis.
//!
//! An [`Expr`] is built from variables, constants, sums, differences and products. [`eval`] takes a
//! set for each variable and returns the *node set* of the expression:
//!
//! - a variable has its set, and a constant itself alone;
//! - a sum or a difference has exactly the sums or differences of its operands' node sets;
//! - a product has, for each run of the one and each run of the other, the numbers from the least
//!   to the greatest product.
//!
//! The node set holds every value that the expression takes when each variable is a member of its
//! set. How much more it holds depends on the form of the expression:
//!
//! - If no variable occurs twice, both ends of each run are values. Check with [`Expr::read_once`].
//! - If there is also no product, every member is a value. Check with [`Expr::has_product`].
//! - A variable that occurs twice counts as two: `(x + y) - x` over x in `[1..2]` and y in `[5..5]`
//!   has the node set `[4..6]`, and 5 is its only value.
//! - A product fills its runs: `x * y` over x in `[0..1]` and y in `[3..5]` has the node set
//!   `[0..5]`; 0 and 5 are values, and 1 and 2 are not.
//!
//! The functions of `laws` state what holds of the values and node sets of every expression.

#[allow(unused_imports)]
use crate::rattle::prelude::*;

pub mod expr;
mod fault;

mod nodes;

pub use expr::Expr;
pub use fault::EvalFault;
pub use nodes::eval;
