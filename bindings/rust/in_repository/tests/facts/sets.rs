//! The calls of sets, and of lists of intervals.
use crate::read::{entailment, interval_text, list, optional, printed, set, set_text, truth};
use crate::{Bound, Fact};
use intervallum::proved::prelude::*;
use intervallum::proved::steps::{Place, Probes, find};
use intervallum::proved::sweep::{Op, coalesce, images};
use intervallum::proved::{AllocError, Global};

/// What the call of a fact answers here.
pub fn answer<B: Bound>(fact: &Fact<'_>) -> Option<String> {
    let a = set::<B>(fact.operands[0])?;
    let Some(second) = fact.operands.get(1) else {
        return alone(fact.call, &a);
    };
    if fact.call == "s.overlap_o" {
        return Some(truth(a.overlap(&optional::<B>(second)?)));
    }
    match second.parse() {
        Ok(x) => with_value(fact.call, &a, x),
        Err(_) => with_set(fact.call, &a, &set(second)?),
    }
}

fn alone<B: Bound>(call: &str, a: &IntervalSet<B>) -> Option<String> {
    Some(match call {
        "s.from_pairs" => set_text(a),
        "s.try_clone" => set_text(&a.try_clone().ok()?),
        "s.complement" => set_text(&a.complement().ok()?),
        "s.count" => a.interval_count().to_string(),
        "s.is_empty" => truth(a.is_empty()),
        "s.is_singleton" => truth(a.is_singleton()),
        _ => printed(call.strip_prefix("s.display")?, a)?,
    })
}

fn with_set<B: Bound>(call: &str, a: &IntervalSet<B>, b: &IntervalSet<B>) -> Option<String> {
    let set = match call {
        "s.union" => a.union(b),
        "s.intersection" => a.intersection(b),
        "s.difference" => a.difference(b),
        "s.symmetric_difference" => a.symmetric_difference(b),
        "s.join" => a.try_clone().ok()?.join(b.try_clone().ok()?),
        "s.meet" => a.try_clone().ok()?.meet(b.try_clone().ok()?),
        "s.add" if a.fits_add(b) => a + b,
        "s.sub" if a.fits_sub(b) => a - b,
        "s.mul" if a.fits_mul(b) => a * b,
        "s.images_add" if a.fits_add(b) => return images_of(a, b, Op::Sum),
        "s.images_sub" if a.fits_sub(b) => return images_of(a, b, Op::Difference),
        "s.images_mul" if a.fits_mul(b) => return images_of(a, b, Op::Product),
        "s.entail" => return Some(entailment(a.entail(b))),
        _ => return asked(call, a, b).map(truth),
    };
    Some(set_text(&set.ok()?))
}

/// The images of the runs, a comma behind each.
fn images_of<B: Bound>(a: &IntervalSet<B>, b: &IntervalSet<B>, op: Op) -> Option<String> {
    Some(images(a, b, op).ok()?.iter().map(|image| interval_text(image) + ",").collect())
}

fn asked<B: Bound>(call: &str, a: &IntervalSet<B>, b: &IntervalSet<B>) -> Option<bool> {
    Some(match call {
        "s.fits_add" => a.fits_add(b),
        "s.fits_sub" => a.fits_sub(b),
        "s.fits_mul" => a.fits_mul(b),
        "s.eq" => a == b,
        "s.overlap" => a.overlap(b),
        "s.is_disjoint" => a.is_disjoint(b),
        "s.is_subset" => a.is_subset(b),
        "s.is_proper_subset" => a.is_proper_subset(b),
        _ => return None,
    })
}

fn with_value<B: Bound>(call: &str, a: &IntervalSet<B>, x: B) -> Option<String> {
    let set = match call {
        "s.union_v" if Interval::in_range(x, x) => a.union(&x),
        "s.intersection_v" => a.intersection(&x),
        "s.difference_v" => a.difference(&x),
        "s.symmetric_difference_v" if Interval::in_range(x, x) => a.symmetric_difference(&x),
        "s.shrink_left" => a.shrink_left(x),
        "s.shrink_right" => a.shrink_right(x),
        "s.strict_shrink_left" => a.strict_shrink_left(x),
        "s.strict_shrink_right" => a.strict_shrink_right(x),
        "s.add_v" if a.fits_add(&x) => a + x,
        "s.sub_v" if a.fits_sub(&x) => a - x,
        "s.mul_v" if a.fits_mul(&x) => a * x,
        _ => return asked_of_value(call, a, x),
    };
    Some(set_text(&set.ok()?))
}

fn asked_of_value<B: Bound>(call: &str, a: &IntervalSet<B>, x: B) -> Option<String> {
    Some(truth(match call {
        "s.fits_add_v" => a.fits_add(&x),
        "s.fits_sub_v" => a.fits_sub(&x),
        "s.fits_mul_v" => a.fits_mul(&x),
        "s.contains" => a.contains(&x),
        "s.overlap_v" => a.overlap(&x),
        "s.place" => {
            return Some(match find(&mut Probes::new(a), x) {
                Place::In(run) => format!("in {run}"),
                Place::Gap(runs) => format!("gap {runs}"),
            });
        }
        _ => return None,
    }))
}

/// What the call of a fact about a list of intervals answers here.
pub fn answer_of_list<B: Bound>(fact: &Fact<'_>) -> Option<String> {
    let list = list::<B>(fact.operands[0])?;
    let made = match (fact.call, fact.operands.get(1)) {
        ("l.coalesce", None) => coalesce(Global, list.into()),
        ("l.unite", None) => united(&list),
        ("l.extend", Some(second)) => {
            let mut extended = set(second)?;
            extended.extend(list.into_iter()).map(|()| extended)
        }
        _ => return None,
    };
    Some(set_text(&made.ok()?))
}

/// The sets of one interval each, united in the order of the list.
fn united<B: Bound>(list: &[Interval<B>]) -> Result<IntervalSet<B>, AllocError> {
    let empty = IntervalSet::empty(Global);
    list.iter().try_fold(empty, |set, run| set.union(&IntervalSet::of(Global, *run)?))
}
