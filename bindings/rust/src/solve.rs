//! A solver: variables that have numbers of sets, rules between them, and all solutions, their number, or the best one.
//!
//! ```
//! use intervallum::solve::{End, Limits, Model};
//!
//! // three talks in a room that is free from 9 to 16, with a break from 12 to 13
//! let mut day = Model::new();
//! let [a, b, c] = [2, 1, 3].map(|hours| day.variable(9..=16 - hours));
//! let lunch = day.variable(12);
//! day.no_overlap(&[(a, 2), (b, 1), (c, 3), (lunch, 1)]);
//! day.at_most(a, 2, b);                                  // b begins when a is over, or later
//!
//! let found = day.solutions(Limits::default());
//! assert_eq!((found.len(), found.end()), (2, End::All));
//! let best = day.minimize(b, Limits::default());
//! let first = best.solution().unwrap();
//! assert_eq!((first[a], first[b], first[c]), (9, 11, 13));
//! ```
//!
//! # A sudoku
//!
//! ```
//! use intervallum::solve::{Limits, Model};
//!
//! let clues = "8..........36......7..9.2...5...7.......457.....1...3...1....68..85...1..9....4..";
//! let mut sudoku = Model::new();
//! let cells = sudoku.variables(81, 1..=9u32);
//! for (cell, clue) in cells.iter().zip(clues.chars()) {
//!     if let Some(digit) = clue.to_digit(10) {
//!         sudoku.restrict(*cell, digit);
//!     }
//! }
//! for i in 0..9 {
//!     sudoku.all_different(&cells[9 * i..9 * i + 9]);
//!     sudoku.all_different(&[0, 1, 2, 3, 4, 5, 6, 7, 8].map(|j| cells[9 * j + i]));
//!     sudoku.all_different(&[0, 1, 2, 9, 10, 11, 18, 19, 20].map(|j| cells[27 * (i / 3) + 3 * (i % 3) + j]));
//! }
//! let found = sudoku.solutions(Limits::default());
//! assert_eq!((found.len(), &found[0].numbers()[..9]), (1, &[8, 1, 2, 7, 5, 3, 6, 4, 9][..]));
//! ```
//!
//! # What is proved
//!
//! Each search is one call of [`proved::ivl_search`](crate::proved::ivl_search::search::rules). Proved is that it returns solutions
//! of its rules alone, none of them twice, and all of them if it ends with [`End::All`]; that the best one has no better; and from which
//! limits on it does not end by them. That the methods of a [`Model`] write the rules that their docs say is tested and not proved.
mod limits;
mod model;
mod rules;
mod searches;
mod solution;

pub use limits::{End, Limits};
pub use model::{Model, Variable};
pub use solution::{Best, Found, Solution};
