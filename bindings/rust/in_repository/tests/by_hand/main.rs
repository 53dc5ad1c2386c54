//! Sets, expressions, windows, linear rules, the store, networks and the calculator by examples that were worked out by hand, and sets of
//! many runs.
#![allow(clippy::type_complexity)] // rows of runs

mod calc;
mod compare;
mod expr;
mod linear;
mod sets;
mod store;
mod within;
