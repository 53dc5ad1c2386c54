//! The calls of intervals.
use crate::read::{entailment, interval, interval_text, optional, printed, truth};
use crate::{Bound, Fact};
use intervallum::proved::prelude::*;

/// What the call of a fact answers here.
pub fn answer<B: Bound>(fact: &Fact<'_>) -> Option<String> {
    let a = interval::<B>(fact.operands[0])?;
    let Some(second) = fact.operands.get(1) else {
        return alone(fact.call, a);
    };
    if fact.call.ends_with("_o") {
        return with_optional(fact.call, a, &optional(second)?);
    }
    match second.parse() {
        Ok(x) => with_value(fact.call, a, x),
        Err(_) => with_interval(fact.call, a, interval(second)?),
    }
}

fn alone<B: Bound>(call: &str, a: Interval<B>) -> Option<String> {
    Some(match call {
        "i.size" => a.size().number().to_string(),
        "i.bounds" => interval_text(&a),
        "i.to_interval" => interval_text::<B>(&a.to_interval()),
        "i.is_empty" => truth(a.is_empty()),
        "i.is_singleton" => truth(a.is_singleton()),
        _ => printed(call.strip_prefix("i.display")?, &a)?,
    })
}

fn with_interval<B: Bound>(call: &str, a: Interval<B>, b: Interval<B>) -> Option<String> {
    let made = match call {
        "i.intersection" => a.intersection(&b),
        "i.difference" => a.difference(&b),
        "i.hull" => a.hull(&b),
        "i.join" => a.join(b),
        "i.meet" => a.meet(b),
        "i.add" if a.fits_add(&b) => a + b,
        "i.sub" if a.fits_sub(&b) => a - b,
        "i.mul" if a.fits_mul(&b) => a * b,
        "i.entail" => return Some(entailment(a.entail(&b))),
        _ => return asked(call, &a, &b).map(truth),
    };
    Some(interval_text(&made))
}

fn asked<B: Bound>(call: &str, a: &Interval<B>, b: &Interval<B>) -> Option<bool> {
    Some(match call {
        "i.fits_add" => a.fits_add(b),
        "i.fits_sub" => a.fits_sub(b),
        "i.fits_mul" => a.fits_mul(b),
        "i.eq" => a == b,
        "i.overlap" => a.overlap(b),
        "i.is_disjoint" => a.is_disjoint(b),
        "i.is_subset" => a.is_subset(b),
        "i.is_proper_subset" => a.is_proper_subset(b),
        _ => return None,
    })
}

fn with_value<B: Bound>(call: &str, a: Interval<B>, x: B) -> Option<String> {
    let made = match call {
        "i.intersection_v" => a.intersection(&x),
        "i.difference_v" => a.difference(&x),
        "i.hull_v" if Interval::in_range(x, x) => a.hull(&x),
        "i.shrink_left" => a.shrink_left(x),
        "i.shrink_right" => a.shrink_right(x),
        "i.strict_shrink_left" => a.strict_shrink_left(x),
        "i.strict_shrink_right" => a.strict_shrink_right(x),
        "i.add_v" if a.fits_add(&x) => a + x,
        "i.sub_v" if a.fits_sub(&x) => a - x,
        "i.mul_v" if a.fits_mul(&x) => a * x,
        "i.contains" => return Some(truth(a.contains(&x))),
        "i.overlap_v" => return Some(truth(a.overlap(&x))),
        "i.is_disjoint_v" => return Some(truth(a.is_disjoint(&x))),
        "i.fits_add_v" => return Some(truth(a.fits_add(&x))),
        "i.fits_sub_v" => return Some(truth(a.fits_sub(&x))),
        "i.fits_mul_v" => return Some(truth(a.fits_mul(&x))),
        _ => return None,
    };
    Some(interval_text(&made))
}

fn with_optional<B: Bound>(call: &str, a: Interval<B>, b: &Optional<B>) -> Option<String> {
    Some(match call {
        "i.intersection_o" => interval_text(&a.intersection(b)),
        "i.difference_o" => interval_text(&a.difference(b)),
        "i.overlap_o" => truth(a.overlap(b)),
        "i.is_disjoint_o" => truth(a.is_disjoint(b)),
        _ => return None,
    })
}
