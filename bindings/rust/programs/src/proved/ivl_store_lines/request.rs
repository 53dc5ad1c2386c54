// Written by bindings/rust/extract from crates/ivl_store_lines/src/request.rt.
//! What a line asks for.

#[allow(unused_imports)]
use crate::rattle::prelude::*;

mod rules;

use crate::proved::ivl_store_lines::fault::Fault;
use crate::proved::ivl_store_lines::relation::Relation;
pub use crate::proved::ivl_store_lines::request::rules::begins_rule;
use crate::proved::ivl_store_lines::request::rules::rule_from;
use crate::proved::ivl_lines::{next_word, number_from, one_word, pairs_from, three_words};
use crate::rattle::std::alloc::Global;

/// What a line asks for. Variables are named by words.
pub enum Request<'a> {
    /// `var x l u l u ..`: a new variable, whose domain is the union of the pairs.
    Var(&'a str, Vec<(i64, i64)>),
    /// `cut x l u l u ..`: the variable keeps the members of its domain that are in the union of
    /// the pairs.
    Cut(&'a str, Vec<(i64, i64)>),
    /// `sum x y z`: the first and the second variable add to the third.
    Sum(&'a str, &'a str, &'a str),
    /// `x + n <= y` and the like: the first variable, shifted by the number, is so related to the second.
    Relate(Relation, &'a str, &'a str, i64),
    /// `different x y ..`: no two of the variables, whose names stand in the text, have the same number.
    Different(&'a str),
    /// `limit n`: how many narrowings each later line may make.
    Limit(u64),
    /// `go on`: narrows further.
    GoOn,
    /// `show`: the domain of each variable; `show x`: that of this one.
    Show(Option<&'a str>),
    /// `solve n`: so many solutions at most, and whether these are all; `solve`: without a bound.
    Solve(u64),
    /// `count`: how many solutions there are.
    Count,
    /// `min x`: a solution with the least number for this variable.
    Least(&'a str),
    /// `max x`: a solution with the greatest number for this variable.
    Greatest(&'a str),
}

const VAR: &str = "var x l u l u ..";

const CUT: &str = "cut x l u l u ..";

const SUM: &str = "sum x y z";

const DIFFERENT: &str = "different x y ..";

const RULES: &str = "x + n <= y, x + n != y, x + n = y or x + y = z";

const LIMIT: &str = "limit n";

const GO_ON: &str = "go on";

const SHOW: &str = "show or show x";

const SOLVE: &str = "solve or solve n";

const COUNT: &str = "count";

const MIN: &str = "min x";

const MAX: &str = "max x";

/// Reads the request of the first word of a line and the words after it: a rule if they have its form, and
/// else a command. So a variable may have the name of a command, and stand in a rule. Linear in the line; allocates
/// the list of the pairs.
///
/// # Errors
///
/// `Command`, `Form`, `Number`, `Range` or `Memory`: see [`Fault`].
pub fn request_from<'a>(
    alloc: Global,
    name: &'a str,
    words: &'a str,
) -> Result<Request<'a>, Fault<'a>> {
    match rule_from(name, words) {
        Some(read) => read,
        None => command_from(alloc, name, words),
    }
}

/// The request of a command and the words after it.
fn command_from<'a>(alloc: Global, name: &'a str, words: &'a str) -> Result<Request<'a>, Fault<'a>> {
    match name {
        "var" => {
            let (variable, pairs) = variable_and_pairs(alloc, words, VAR)?;
            Ok(Request::Var(variable, pairs))
        }
        "cut" => cut_from(alloc, words),
        "sum" => match three_words(words) {
            Some((x, y, z)) => Ok(Request::Sum(x, y, z)),
            None => Err(Fault::Form(SUM)),
        },
        "different" => different_from(words),
        "limit" => Ok(Request::Limit(limit_from(words)?)),
        "go" => match one_word(words) {
            Some(word) => go_on_from(word),
            None => Err(Fault::Form(GO_ON)),
        },
        "show" => show_from(words),
        "solve" => Ok(Request::Solve(most_from(words)?)),
        "count" => count_from(words),
        "min" => Ok(Request::Least(name_from(words, MIN)?)),
        "max" => Ok(Request::Greatest(name_from(words, MAX)?)),
        _ => Err(unknown_command(name, words)),
    }
}

/// The fault of words that begin with no name of a command, which may be meant as a rule.
fn unknown_command<'a>(name: &'a str, words: &str) -> Fault<'a> {
    if begins_rule(words) {
        Fault::Form(RULES)
    } else {
        Fault::Command(name)
    }
}

/// The request of `different`, after which there are two names or more.
fn different_from<'a>(words: &'a str) -> Result<Request<'a>, Fault<'a>> {
    if next_word(words).is_none() || one_word(words).is_some() {
        return Err(Fault::Form(DIFFERENT));
    }
    Ok(Request::Different(words))
}

/// The first word, and the numbers after it two by two.
fn variable_and_pairs<'a>(
    alloc: Global,
    words: &'a str,
    form: &'static str,
) -> Result<(&'a str, Vec<(i64, i64)>), Fault<'a>> {
    let Some((variable, bounds)) = next_word(words) else {
        return Err(Fault::Form(form));
    };
    if let Some(pairs) = pairs_from(alloc, bounds)? {
        return Ok((variable, pairs));
    }
    match first_bad_number(bounds) {
        Some(word) => Err(Fault::Number(word)),
        None => Err(Fault::Form(form)),
    }
}

/// The request of `cut`, for which there has to be a pair: without one the domain would be emptied.
fn cut_from<'a>(alloc: Global, words: &'a str) -> Result<Request<'a>, Fault<'a>> {
    if one_word(words).is_some() {
        return Err(Fault::Form(CUT));
    }
    let (variable, pairs) = variable_and_pairs(alloc, words, CUT)?;
    Ok(Request::Cut(variable, pairs))
}

/// The request of `show`, with one name or none.
fn show_from<'a>(words: &'a str) -> Result<Request<'a>, Fault<'a>> {
    if next_word(words).is_none() {
        return Ok(Request::Show(None));
    }
    match one_word(words) {
        Some(name) => Ok(Request::Show(Some(name))),
        None => Err(Fault::Form(SHOW)),
    }
}

/// The request of `go` and one word.
fn go_on_from<'a>(word: &'a str) -> Result<Request<'a>, Fault<'a>> {
    if word == "on" {
        Ok(Request::GoOn)
    } else {
        Err(Fault::Form(GO_ON))
    }
}

/// The number of narrowings, which is the only word.
fn limit_from<'a>(words: &'a str) -> Result<u64, Fault<'a>> {
    let Some(word) = one_word(words) else {
        return Err(Fault::Form(LIMIT));
    };
    match natural_from(word) {
        Some(limit) => Ok(limit),
        None => Err(Fault::Number(word)),
    }
}

/// The number of solutions at most, which is the only word; without a word there is no bound.
fn most_from<'a>(words: &'a str) -> Result<u64, Fault<'a>> {
    if next_word(words).is_none() {
        return Ok(u64::MAX);
    }
    let Some(word) = one_word(words) else {
        return Err(Fault::Form(SOLVE));
    };
    natural_from(word).ok_or(Fault::Number(word))
}

/// The request of `count`, after which there is no word.
fn count_from<'a>(words: &'a str) -> Result<Request<'a>, Fault<'a>> {
    match next_word(words) {
        None => Ok(Request::Count),
        Some(_) => Err(Fault::Form(COUNT)),
    }
}

/// The name of a variable, which is the only word.
fn name_from<'a>(words: &'a str, form: &'static str) -> Result<&'a str, Fault<'a>> {
    one_word(words).ok_or(Fault::Form(form))
}

/// The number that a word is, or `None` if it is not a number of `i64` from 0 up.
fn natural_from(word: &str) -> Option<u64> {
    u64::try_from(number_from(word)?).ok()
}

/// The first word that is not a number.
fn first_bad_number(words: &str) -> Option<&str> {
    let mut rest = words;
    while let Some((word, after)) = next_word(rest) {
        if number_from(word).is_none() {
            return Some(word);
        }
        rest = after;
    }
    None
}
