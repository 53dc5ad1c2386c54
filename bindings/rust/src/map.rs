//! Maps from integers to values with the methods and traits of a map of std, over the proved ones.
mod below;
mod combining;
mod conversions;
mod edits;
mod iterators;
mod making;
mod operators;
mod reads;
#[cfg(feature = "serde")]
mod serde;
mod sweep;

pub use iterators::{IntoIter, Iter, IterWithin, Values};

use crate::proved::width::Width;

/// A map from integers to values, stored as ascending runs of equal values.
///
/// `T` is a type of numbers as an [`IntervalSet`](crate::IntervalSet) has. A number has one value or none. Numbers next to each
/// other that have equal values stand in one entry: its run, which is as long as can be, and the value. So a map of a few long runs is small,
/// however many numbers it has, and two maps are equal exactly when each number has equal values in both.
///
/// `V` is any type with `Clone` and `Eq`, which keep the laws that Rust's std asks of them: `==` is an equivalence, and a copy
/// equals what it was copied from. The proofs take the laws for granted; a type that breaks them may get wrong answers, but never undefined
/// behaviour. A value is copied where an edit splits its entry, by [`update`](Self::update), by calls that return another map, and by
/// edits of many entries at once, which may make the map anew.
///
/// Equal values that touch are one entry, whoever wrote them: where two that are equal have to stay apart, put into the value what tells them
/// apart, as an id.
///
/// ```
/// use intervallum::IntervalMap;
///
/// // who has the desk, by hours: later entries win
/// let mut desk = IntervalMap::from([(8..18u8, "anna"), (12..14, "bela"), (16..18, "bela")]);
/// assert_eq!((desk.get(11), desk.get(12), desk.get(18)), (Some(&"anna"), Some(&"bela"), None));
/// assert_eq!(desk.get_run(15), Some((14..=15, &"anna")));
/// assert_eq!(desk.interval_count(), 4);
///
/// desk.insert(14..16, "bela");                            // joins what bela has on both sides
/// assert_eq!(desk.iter().collect::<Vec<_>>(), [(8..=11, &"anna"), (12..=17, &"bela")]);
/// assert_eq!(desk.numbers_with(|name| *name == "anna").len(), 4);
///
/// desk.remove(10..=10);
/// assert_eq!(desk.gaps_within(9..20).to_string(), "{[10..10][18..19]}");
/// assert_eq!(desk.insert_if_free(17..20, "cleo"), Err((12..=17, &"bela")));
/// assert_eq!(desk.insert_if_free(18..20, "cleo"), Ok(()));
/// assert_eq!(desk.first_fit(.., 3), Some(0..=2));
/// assert_eq!(format!("{desk:?}"), r#"{8..=9: "anna", 11..=11: "anna", 12..=17: "bela", 18..=19: "cleo"}"#);
/// ```
///
/// # Conditions, cost and memory
///
/// Numbers and ranges are passed by value, as to a set. A call that gives values to numbers needs these to be in the
/// [`limits`](crate::IntervalSet::limits); a call that asks or removes takes any, and a number outside the limits has no value. If
/// the condition of a method does not hold, it panics with its name, the condition and the numbers; the method `checked_..` beside it returns
/// `None` instead. If an allocation fails, the process aborts, as in std. If code of a value panics in an edit, be it `==`, `clone`
/// or `drop`, the numbers from the least to the greatest of the edit may have lost their values, and all others keep theirs.
///
/// `n` and `m` are the numbers of entries. They stand in one vector, each with two bounds and a value: 12 bytes for bounds and values of 32
/// bits. A question is a binary search. An edit that adds or takes out an entry moves those above it.
///
/// # Beside `rangemap`
///
/// | `RangeInclusiveMap` of that crate | Here |
/// |---|---|
/// | `insert(1..=5, v)`, `remove(1..=5)` | the same; any range, as `1..6` or `..`, a pair `(1, 5)` or a number |
/// | `get(&x)`, `contains_key(&x)` | [`get(x)`](Self::get), [`contains(x)`](Self::contains) |
/// | `get_key_value(&x)` | [`get_run(x)`](Self::get_run), whose run is a value |
/// | `gaps(&(1..=9))`, an iterator | [`gaps_within(1..=9)`](Self::gaps_within), a set |
/// | `overlapping(&(1..=9))` | [`overlapping(1..=9)`](Self::overlapping) |
/// | `iter()` yields `(&RangeInclusive, &V)` | [`iter()`](Self::iter) yields `(RangeInclusive, &V)` |
/// | numbers are any type with an order, and step functions | numbers are those of [`Width`], which knows the next one |
///
/// Each method is a call or two of a [`proved::IntervalMap`](crate::proved::ivl_map::IntervalMap) and links its contract, or says that it
/// is tested and not proved.
pub struct IntervalMap<T: Width, V: Clone + Eq>(Option<below::Proved<T, V>>);
