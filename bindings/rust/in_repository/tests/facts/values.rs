//! The calls of values, and of values that may be absent.
use crate::read::{interval, interval_text, optional, optional_text, truth};
use crate::{Bound, Fact};
use intervallum::proved::prelude::*;

/// What the call of a fact answers here.
pub fn answer<B: Bound>(fact: &Fact<'_>) -> Option<String> {
    let first = fact.operands[0];
    let Some(second) = fact.operands.get(1) else {
        return alone::<B>(fact.call, first.parse().ok()?);
    };
    if fact.call.starts_with("opt.") {
        return optional_with_interval::<B>(fact.call, &optional(first)?, &interval(second)?);
    }
    let x: B = first.parse().ok()?;
    match second.parse() {
        Ok(y) => with_value(fact.call, x, y),
        Err(_) => with_interval(fact.call, x, &interval(second)?),
    }
}

fn alone<B: Bound>(call: &str, x: B) -> Option<String> {
    if !Interval::in_range(x, x) {
        return None;
    }
    let made: Interval<B> = match call {
        "v.singleton" => Interval::singleton(x),
        "v.to_interval" => x.to_interval(),
        "v.from" => (x..).to_interval(),
        "v.up_to" => (..=x).to_interval(),
        _ => return None,
    };
    Some(interval_text(&made))
}

fn with_value<B: Bound>(call: &str, x: B, y: B) -> Option<String> {
    let known = |answer: Option<B>| answer.map_or(String::from("none"), |x| x.to_string());
    Some(match call {
        "v.in_range" => truth(Interval::in_range(x, y)),
        "v.pair" if Interval::in_range(x, y) => interval_text::<B>(&(x, y).to_interval()),
        "v.from_to" if Interval::in_range(x, y) => interval_text::<B>(&(x..=y).to_interval()),
        "v.checked_add" => known(x.checked_add(y)),
        "v.checked_sub" => known(x.checked_sub(y)),
        "v.checked_mul" => known(x.checked_mul(y)),
        _ => return None,
    })
}

fn with_interval<B: Bound>(call: &str, x: B, a: &Interval<B>) -> Option<String> {
    Some(match call {
        "v.overlap" => truth(x.overlap(a)),
        "v.is_disjoint" => truth(x.is_disjoint(a)),
        "v.hull" if Interval::in_range(x, x) => interval_text(&x.hull(a)),
        _ => return None,
    })
}

fn optional_with_interval<B: Bound>(call: &str, a: &Optional<B>, b: &Interval<B>) -> Option<String> {
    Some(match call {
        "opt.intersection" => optional_text(&a.intersection(b)),
        "opt.difference" => optional_text(&a.difference(b)),
        "opt.overlap" => truth(a.overlap(b)),
        "opt.is_disjoint" => truth(a.is_disjoint(b)),
        _ => return None,
    })
}
