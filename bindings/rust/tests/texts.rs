//! The texts of both kinds of set: at the root a width pads the whole text, and a precision cuts it, as of any text; those of the
//! proved sets are the same whatever the width, the fill or the sign asked for.
use intervallum::{IntervalSet, PagedSet};
use std::fmt::Display;

fn runs_of(count: i64) -> Vec<(i64, i64)> {
    (0..count).map(|i| (5 * i - 7, 5 * i - 6)).collect()
}

fn text_of(count: i64) -> String {
    let runs: String = runs_of(count).iter().map(|(lower, upper)| format!("[{lower}..{upper}]")).collect();
    if count == 1 { runs } else { format!("{{{runs}}}") }
}

fn texts(set: &impl Display) -> [String; 8] {
    [
        format!("{set}"),
        format!("{set:1}"),
        format!("{set:>9}"),
        format!("{set:-<40}"),
        format!("{set:?^5000}"),
        format!("{set:+}"),
        format!("{set:07}"),
        format!("{set:#.3}"),
    ]
}

// No run, one, few, and more than one page holds.
#[test]
fn width_and_fill_are_for_the_whole_text_at_the_root_alone() {
    for count in [0, 1, 2, 3, 127, 128, 500] {
        let runs = runs_of(count);
        let set: IntervalSet<i64> = runs.iter().map(|&(lower, upper)| lower..=upper).collect();
        let paged: PagedSet<i64> = runs.iter().map(|&(lower, upper)| lower..=upper).collect();
        let told = text_of(count);
        for ((text, paged_text), padded) in texts(&set).into_iter().zip(texts(&paged)).zip(texts(&told)) {
            assert_eq!((text.as_str(), paged_text.as_str()), (padded.as_str(), padded.as_str()), "of {count} runs");
        }
        for (text, paged_text) in texts(&*set.as_proved()).into_iter().zip(texts(&*paged.as_proved())) {
            assert_eq!((text.as_str(), paged_text.as_str()), (told.as_str(), told.as_str()), "of {count} runs, proved");
        }
    }
}
