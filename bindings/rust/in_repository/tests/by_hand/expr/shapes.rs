//! Which variables and products stand in an expression.
use super::{add, mul, sub};
use crate::compare::check_all;
use intervallum::proved::ivl_expr::expr::Expr;

#[test]
fn variables_that_occur_and_repeat() {
    let first = add(Expr::Var(3), Expr::Const(5i32));
    let of_first = [first.occurs(3), first.occurs(5), first.read_once()];
    let second = sub(first, Expr::Var(1));
    let of_second = [second.occurs(3), second.occurs(1), second.read_once()];
    // The variable stands once on each side.
    let third = sub(Expr::Var(1), second);
    check_all(&of_first, &[true, false, true]);
    check_all(&of_second, &[true, true, true]);
    check_all(&[third.read_once()], &[false]);
}

#[test]
fn products_below_sums() {
    let sum = add(Expr::Var(0), Expr::Const(5i32));
    let product = mul(Expr::Var(0), Expr::Const(5i32));
    let have_products = [sum.has_product(), product.has_product()];
    let below = add(sum, product);
    check_all(&have_products, &[false, true]);
    check_all(&[below.has_product()], &[true]);
}
