//! Operands as the files write them, and answers as they write them.
use crate::Bound;
use intervallum::proved::prelude::*;
use intervallum::proved::{Global, interval_set::ToIntervalSet, kleene::SKleene};
use std::fmt::Display;

/// Two numbers, which may cross, or the word of a call that makes an interval; `-` for `empty`.
pub fn interval<B: Bound>(text: &str) -> Option<Interval<B>> {
    Some(match text {
        "-" => Interval::empty(),
        "whole" => Interval::whole(),
        "top" => Interval::top(),
        "bot" => Interval::bot(),
        "()" => ().to_interval(),
        _ => {
            let (lower, upper) = bounds(text)?;
            Interval::in_range(lower, upper).then(|| Interval::new(lower, upper))?
        }
    })
}

fn bounds<B: Bound>(text: &str) -> Option<(B, B)> {
    let (lower, upper) = text.split_once(' ')?;
    Some((lower.parse().ok()?, upper.parse().ok()?))
}

/// A number, or `none`.
pub fn optional<B: Bound>(text: &str) -> Option<Optional<B>> {
    match text {
        "none" => Some(Optional::empty()),
        _ => text.parse().ok().map(Optional::singleton),
    }
}

/// The set of pairs `l u l u ..`, or of none, `-`, or what a call makes: the word of the call, and its operands.
pub fn set<B: Bound>(text: &str) -> Option<IntervalSet<B>> {
    let words: Vec<&str> = text.split(' ').collect();
    let set = match words[0] {
        "empty" => Ok(IntervalSet::empty(Global)),
        "whole" => IntervalSet::whole(Global),
        "top" => Ok(IntervalSet::top(Global)),
        "bot" => IntervalSet::bot(Global),
        "new" => {
            let (lower, upper) = (words[1].parse().ok()?, words[2].parse().ok()?);
            let may = lower <= upper && Interval::in_range(lower, upper);
            may.then(|| IntervalSet::new(Global, lower, upper))?
        }
        "singleton" => {
            let x = words[1].parse().ok()?;
            Interval::in_range(x, x).then(|| IntervalSet::singleton(Global, x))?
        }
        _ => {
            let pairs = pairs::<B>(text)?;
            let may = pairs.iter().all(|&(lower, upper)| Interval::in_range(lower, upper));
            may.then(|| pairs.as_slice().to_interval_set(Global))?
        }
    };
    set.ok()
}

/// The numbers of a text, two by two; `-` for none.
pub fn pairs<B: Bound>(text: &str) -> Option<Vec<(B, B)>> {
    if text == "-" {
        return Some(Vec::new());
    }
    let words: Vec<&str> = text.split(' ').collect();
    words.chunks(2).map(|pair| Some((pair[0].parse().ok()?, pair.get(1)?.parse().ok()?))).collect()
}

/// The intervals `l u l u ..`, any of which may cross, in the order of the text.
pub fn list<B: Bound>(text: &str) -> Option<Vec<Interval<B>>> {
    pairs(text)?.into_iter().map(|(l, u)| Interval::in_range(l, u).then(|| Interval::new(l, u))).collect()
}

/// The parts of a text, " | " between them, or `none`.
pub fn parts<T>(text: &str, read: impl Fn(&str) -> Option<T>) -> Option<Vec<T>> {
    if text == "none" { Some(Vec::new()) } else { text.split(" | ").map(read).collect() }
}

pub fn truth(answer: bool) -> String {
    String::from(if answer { "yes" } else { "no" })
}

pub fn entailment(answer: SKleene) -> String {
    format!("{answer:?}")
}

/// `-` for no member, else the two bounds.
pub fn interval_text<B: Bound>(a: &Interval<B>) -> String {
    if a.is_empty() { String::from("-") } else { format!("{} {}", a.lower(), a.upper()) }
}

/// `-` for no member, else the bounds of each run.
pub fn runs_text<B: Bound>(a: &IntervalSet<B>) -> String {
    let runs: Vec<String> = a.iter().map(interval_text).collect();
    if runs.is_empty() { String::from("-") } else { runs.join(" ") }
}

/// The runs and then the size.
pub fn set_text<B: Bound>(a: &IntervalSet<B>) -> String {
    format!("{} # {}", runs_text(a), a.size().number())
}

pub fn optional_text<B: Bound>(a: &Optional<B>) -> String {
    a.as_ref().map_or(String::from("none"), |x| x.to_string())
}

/// The printed text under a form, such as `:>20`.
pub fn printed(form: &str, value: &impl Display) -> Option<String> {
    Some(match form {
        "" => format!("{value}"),
        ":>20" => format!("{value:>20}"),
        ":020" => format!("{value:020}"),
        ":*<9" => format!("{value:*<9}"),
        ":*^9" => format!("{value:*^9}"),
        ":+" => format!("{value:+}"),
        _ => return None,
    })
}
