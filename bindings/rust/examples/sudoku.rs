//! A sudoku: each cell is a variable, and the cells of a row, a column or a box are all different.
use intervallum::solve::{End, Limits, Model};

const CLUES: [&str; 9] = [
    "8........",
    "..36.....",
    ".7..9.2..",
    ".5...7...",
    "....457..",
    "...1...3.",
    "..1....68",
    "..85...1.",
    ".9....4..",
];

pub fn main() {
    let mut sudoku = Model::new();
    let cells = sudoku.variables(81, 1..=9u32);
    for (cell, clue) in cells.iter().zip(CLUES.concat().chars()) {
        if let Some(digit) = clue.to_digit(10) {
            sudoku.restrict(*cell, digit);
        }
    }
    for i in 0..9 {
        sudoku.all_different(&cells[9 * i..9 * i + 9]);
        sudoku.all_different(&[0, 1, 2, 3, 4, 5, 6, 7, 8].map(|j| cells[9 * j + i]));
        sudoku.all_different(&[0, 1, 2, 9, 10, 11, 18, 19, 20].map(|j| cells[27 * (i / 3) + 3 * (i % 3) + j]));
    }

    // a second solution would show that the clues do not tell enough
    let found = sudoku.solutions(Limits::default().solutions(2));
    assert_eq!((found.len(), found.end()), (1, End::All));
    for row in found[0].numbers().chunks(9) {
        println!("{}", row.iter().map(u32::to_string).collect::<String>());
    }
    assert!(found[0].numbers().starts_with(&[8, 1, 2, 7, 5, 3, 6, 4, 9]));

    // a limit that does not suffice is told
    assert_eq!(sudoku.count(Limits::default().nodes(10)).1, End::Nodes);
}
