//! Walks, and sums and differences that are cut to the range or to a window.
use crate::read::{interval, runs_text, set, truth};
use crate::{Bound, Fact};
use intervallum::proved::interval_set::IntervalSet;
use intervallum::proved::ivl_within::within::{add_within, differences_in_window, sub_within, sums_in_window};
use intervallum::proved::steps::{Walk, common, unite};

/// What the call of a fact answers here: the runs, and before them, of what is cut to the range, whether it was. None for another
/// call.
pub fn answer<B: Bound>(fact: &Fact<'_>) -> Option<String> {
    let sets = || Some((set::<B>(fact.operands[0])?, set::<B>(fact.operands[1])?));
    let window = || interval::<B>(fact.operands[2]);
    let made = match fact.call {
        "unite" => sets().map(|(a, b)| unite(Walk::new(&a), Walk::new(&b)))?,
        "common" => sets().map(|(a, b)| common(Walk::new(&a), Walk::new(&b)))?,
        "sums_in_window" => sets().zip(window()).map(|((a, b), window)| sums_in_window(&a, &b, &window))?,
        "differences_in_window" => {
            sets().zip(window()).map(|((a, b), window)| differences_in_window(&a, &b, &window))?
        }
        "add_within" => return sets().and_then(|(a, b)| add_within(&a, &b).ok()).map(cut_text),
        "sub_within" => return sets().and_then(|(a, b)| sub_within(&a, &b).ok()).map(cut_text),
        _ => return None,
    };
    Some(runs_text(&made.ok()?))
}

fn cut_text<B: Bound>((set, is_cut): (IntervalSet<B>, bool)) -> String {
    format!("{} ; {}", truth(is_cut), runs_text(&set))
}
