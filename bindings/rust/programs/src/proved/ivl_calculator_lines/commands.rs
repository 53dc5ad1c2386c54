// Written by bindings/rust/extract from crates/ivl_calculator_lines/src/commands.rt.
//! Parses the words of a line as a command.

#[allow(unused_imports)]
use crate::rattle::prelude::*;
use crate::proved::intervallum::interval::Interval;
use crate::proved::intervallum::ops::Range;
use crate::proved::ivl_calculator::Command;
use crate::proved::ivl_lines::{next_word, number_from, one_word, pairs_from, three_words, two_words};
use crate::rattle::std::alloc::{AllocError, Global};

/// Returns the command with this name and these words after it, or `None` if that is not a command.
///
/// # Errors
///
/// Fails only if an allocation for the numbers of `set` fails; no other command allocates.
pub fn command_from(
    alloc: Global,
    name: &str,
    words: &str,
) -> Result<Option<Command<i64>>, AllocError> {
    match name {
        "set" => set_from(alloc, words),
        _ => Ok(command_by_name(name, words)),
    }
}

// All names but `set`, each with the form of the words after it.
fn command_by_name(name: &str, words: &str) -> Option<Command<i64>> {
    match name {
        "union" => of_three_registers(words, Command::Union),
        "inter" => of_three_registers(words, Command::Inter),
        "diff" => of_three_registers(words, Command::Diff),
        "sym" => of_three_registers(words, Command::Sym),
        "comp" => of_two_registers(words, Command::Comp),
        "left" => of_two_registers_and_number(words, Command::Left),
        "right" => of_two_registers_and_number(words, Command::Right),
        "sleft" => of_two_registers_and_number(words, Command::StrictLeft),
        "sright" => of_two_registers_and_number(words, Command::StrictRight),
        "plus" => of_three_registers(words, Command::Plus),
        "minus" => of_three_registers(words, Command::Minus),
        "times" => of_three_registers(words, Command::Times),
        "plusv" => of_two_registers_and_number(words, Command::PlusValue),
        "minusv" => of_two_registers_and_number(words, Command::MinusValue),
        "timesv" => of_two_registers_and_number(words, Command::TimesValue),
        "has" => of_register_and_number(words, Command::Has),
        "size" => of_register(words, Command::Size),
        "count" => of_register(words, Command::Count),
        "low" => of_register(words, Command::Low),
        "high" => of_register(words, Command::High),
        "same" => of_two_registers(words, Command::Same),
        "sub" => of_two_registers(words, Command::Sub),
        "meets" => of_two_registers(words, Command::Meets),
        "show" => of_register(words, Command::Show),
        _ => None,
    }
}

// The command that `make` returns for the registers and the number in the words, or `None` if the
// words are not exactly these.
fn of_register<F: FnOnce(usize) -> Command<i64>>(words: &str, make: F) -> Option<Command<i64>> {
    let a = one_word(words)?;
    Some(make(register_from(a)?))
}

fn of_two_registers<F: FnOnce(usize, usize) -> Command<i64>>(
    words: &str,
    make: F,
) -> Option<Command<i64>> {
    let (a, b) = two_words(words)?;
    Some(make(register_from(a)?, register_from(b)?))
}

fn of_three_registers<F: FnOnce(usize, usize, usize) -> Command<i64>>(
    words: &str,
    make: F,
) -> Option<Command<i64>> {
    let (r, a, b) = three_words(words)?;
    Some(make(register_from(r)?, register_from(a)?, register_from(b)?))
}

fn of_register_and_number<F: FnOnce(usize, i64) -> Command<i64>>(
    words: &str,
    make: F,
) -> Option<Command<i64>> {
    let (a, v) = two_words(words)?;
    Some(make(register_from(a)?, number_from(v)?))
}

fn of_two_registers_and_number<F: FnOnce(usize, usize, i64) -> Command<i64>>(
    words: &str,
    make: F,
) -> Option<Command<i64>> {
    let (r, a, v) = three_words(words)?;
    Some(make(register_from(r)?, register_from(a)?, number_from(v)?))
}

// `set r l u l u ..`

fn set_from(alloc: Global, words: &str) -> Result<Option<Command<i64>>, AllocError> {
    let Some((first, rest)) = next_word(words) else {
        return Ok(None);
    };
    let Some(r) = register_from(first) else {
        return Ok(None);
    };
    match pairs_from(alloc, rest)? {
        Some(pairs) => Ok(Some(Command::Set(r, pairs))),
        None => Ok(None),
    }
}

/// Whether all pairs of the words are in range, or `None` if the words are no pairs. Linear, does not
/// allocate.
pub fn pairs_in_range(words: &str) -> Option<bool> {
    let mut in_range = true;
    let mut rest = words;
    while let Some((l, after)) = next_word(rest) {
        let (u, after) = next_word(after)?;
        let (lower, upper) = (number_from(l)?, number_from(u)?);
        in_range &= pair_in_range(lower, upper);
        rest = after;
    }
    Some(in_range)
}

fn pair_in_range(lower: i64, upper: i64) -> bool {
    Interval::in_range(lower, upper)
}

/// The register that a word names, or `None` if it is not one letter from a to z.
pub fn register_from(word: &str) -> Option<usize> {
    match word.as_bytes() {
        [letter @ b'a'..=b'z'] => Some((*letter - b'a') as usize),
        _ => None,
    }
}
