//! Sets of integers as ascending runs, for allocators of ids and ports, calendars, constraint solvers and compilers. What each
//! call of the proved code returns is proved.
//!
//! ```
//! use intervallum::IntervalSet;
//!
//! // a set is made of a range; of ranges, pairs or values in any order; of what an iterator yields; of a text
//! let day = IntervalSet::from(8..18u8);
//! let lunch: IntervalSet<u8> = [13, 12].into_iter().collect();
//! assert_eq!((&day & !&lunch).to_string().parse(), Ok(IntervalSet::from([(8, 11), (14, 17)])));
//!
//! let mut booked = IntervalSet::from([9..=10u8, 13..=15]);
//! booked.insert(11);                                     // 11 joins the run from 9
//! assert_eq!(booked.to_string(), "{[9..11][13..15]}");
//! let free = booked.gaps_within(8..18);
//! assert_eq!(free.runs().collect::<Vec<_>>(), [8..=8, 12..=12, 16..=17]);
//! assert_eq!(free.first_fit(2), Some(16..=17));
//! ```
//!
//! # Calls by task
//!
//! | Task | Calls of [`IntervalSet`] |
//! |---|---|
//! | make | `from` a range, or an array, slice or `Vec` of values, ranges, pairs or sets; `collect`, `parse`, [`new`](IntervalSet::new), [`singleton`](IntervalSet::singleton), [`empty`](IntervalSet::empty), [`whole`](IntervalSet::whole), [`limits`](IntervalSet::limits) |
//! | read | [`size`](IntervalSet::size), [`interval_count`](IntervalSet::interval_count), [`is_empty`](IntervalSet::is_empty), [`is_singleton`](IntervalSet::is_singleton), [`lower`](IntervalSet::lower), [`upper`](IntervalSet::upper), [`first`](IntervalSet::first), [`last`](IntervalSet::last), [`runs`](IntervalSet::runs), [`iter`](IntervalSet::iter), [`len`](IntervalSet::len), [`size_within`](IntervalSet::size_within), [`intersection_size`](IntervalSet::intersection_size), [`union_size`](IntervalSet::union_size), [`difference_size`](IntervalSet::difference_size) |
//! | test | `==`, `<`, [`contains`](IntervalSet::contains), [`includes`](IntervalSet::includes), [`overlaps`](IntervalSet::overlaps), [`overlap`](IntervalSet::overlap), [`is_disjoint`](IntervalSet::is_disjoint), [`is_subset`](IntervalSet::is_subset), [`is_proper_subset`](IntervalSet::is_proper_subset), [`is_superset`](IntervalSet::is_superset), [`is_proper_superset`](IntervalSet::is_proper_superset) |
//! | search | [`next_from`](IntervalSet::next_from), [`previous_to`](IntervalSet::previous_to), [`run_at`](IntervalSet::run_at), [`runs_within`](IntervalSet::runs_within), [`first_fit`](IntervalSet::first_fit), [`first_fit_aligned`](IntervalSet::first_fit_aligned), [`first_fit_from`](IntervalSet::first_fit_from), [`last_fit`](IntervalSet::last_fit), [`best_fit`](IntervalSet::best_fit), [`gaps_within`](IntervalSet::gaps_within), [`rank`](IntervalSet::rank), [`nth`](IntervalSet::nth) |
//! | combine | `\|`, `&`, `^`, `!`, `\|=`, [`union`](IntervalSet::union), [`intersection`](IntervalSet::intersection), [`difference`](IntervalSet::difference), [`symmetric_difference`](IntervalSet::symmetric_difference), [`complement`](IntervalSet::complement), [`hull`](IntervalSet::hull), [`close_gaps`](IntervalSet::close_gaps), [`shifted`](IntervalSet::shifted), [`union_of`](IntervalSet::union_of), [`intersection_of`](IntervalSet::intersection_of), [`within`](IntervalSet::within) |
//! | edit | `extend`, [`insert`](IntervalSet::insert), [`remove`](IntervalSet::remove), [`insert_interval`](IntervalSet::insert_interval), [`remove_interval`](IntervalSet::remove_interval), [`clear`](IntervalSet::clear), [`pop_first`](IntervalSet::pop_first), [`pop_last`](IntervalSet::pop_last), [`append`](IntervalSet::append), [`retain`](IntervalSet::retain), [`retain_runs`](IntervalSet::retain_runs), [`take_first_fit`](IntervalSet::take_first_fit), [`split_off`](IntervalSet::split_off) |
//! | iterate | [`range`](IntervalSet::range), [`into_runs`](IntervalSet::into_runs) |
//! | arithmetic | `+`, `-`, `*`, [`checked_add`](IntervalSet::checked_add), [`fits_add`](IntervalSet::fits_add) and so on |
//!
//! A [`PagedSet`] has the same calls but for `+`, `-` and `*`, and [`longest_run`](PagedSet::longest_run). It is for more than some 1,000 runs
//! that change: an edit moves the runs of one page, where that of an [`IntervalSet`] may move all runs above it. Calls with two sets take
//! one of either kind.
//!
//! An [`IntervalMap`] has a value at each number of its runs: who holds which ids, which rule is for which addresses. A
//! [`solve::Model`] has variables over sets and rules between them, and finds all solutions, or the best: a sudoku takes
//! [15 lines](solve#a-sudoku).
//!
//! # Values
//!
//! Sets have integers of at most 64 bits, less the greatest value of an unsigned type and the least of a signed one; all values of
//! `u8`, `u16` and `u32` as [`Full`]; `char`s; IPv4 addresses; or values of a type of yours that is [`Width`].
//!
//! # Two faces
//!
//! [`proved`] is the proved surface as it is: it takes an allocator and returns a `Result`, so that a failed allocation is an
//! error and nothing more, and its docs have each call's contract, clause by clause. The root is for programs in which running
//! out of memory may end the process: [`IntervalSet`], [`PagedSet`] and [`IntervalMap`] have methods that need no trait in scope, and the traits
//! of a set of Rust's std. Each method is one call of the proved face, or some few. Its conditions are tested in every build.
//!
//! # What is proved, and what is trusted
//!
//! Each body of [`proved`] stands, token for token, in source that was proved with its contract: every call returns, its answer
//! is defined over plain sets of numbers, and a set is the unique list of the maximal runs of its members, so that `==` compares
//! members. Not proved, but tested and trusted, are the script that takes the ghosts out of the source, as far as the check
//! beside it does not see, the small std below the proved code ([`rattle`]), this root, and `rustc`. There is no `unsafe` code.
//!
//! # Features
//!
//! None is enabled by itself, and then the crate depends on nothing but `core` and `alloc`.
//!
//! - `serde`: `Serialize` and `Deserialize` of both sets, as the sequence of the runs: `[[1,2],[5,5]]` in JSON, and `[]` for the empty
//!   set, for which `null` is read too; and of maps, as that of runs and values: `[[[1,2],"anna"],[[5,5],"bela"]]`. A run that crosses is
//!   an error.
//! - `json`: [`proved`]`::ivl_json`, the proved reading and writing of the original's form, over `serde_json`: `null` for the empty
//!   set, and a run that crosses is none.
//!
//! # Machines of 32 bits
//!
//! The proofs are about a `usize` of 64 bits. On 32 bits the crate compiles but for `proved::ivl_buffers`, and its tests are run by
//! hand; nothing is proved there. [`len`](IntervalSet::len) then answers `usize::MAX` for sets with more members.
#![no_std]
#![forbid(unsafe_code)]
#![warn(missing_docs)]

extern crate alloc;

mod bounds;
pub mod definitions;
pub mod map;
pub mod proved;
pub mod rattle;
pub mod set;
pub mod solve;

/// The root's types, for glob imports.
///
/// ```
/// use intervallum::prelude::*;
///
/// let morning = IntervalSet::new(8, 11);
/// let noon = IntervalSet::new(12, 13);
/// let open = morning.union(&noon);           // the two touch, so they are one run
/// assert_eq!(open.interval_count(), 1);
/// assert_eq!(open.size(), 6u32);
/// assert!(open.contains(12) && !open.contains(14));
/// assert!(open == IntervalSet::new(8, 13));
/// ```
pub mod prelude {
    pub use crate::{Full, IntervalMap, IntervalSet, PagedSet, Size, Width};
}

#[doc(inline)]
pub use map::IntervalMap;

/// A set of `Full` integers has byte 0xFF and port 65535 too:
///
/// ```
/// use intervallum::{Full, IntervalSet};
///
/// let mut open = IntervalSet::from([Full(0u16)..=Full(1023), Full(65535)..=Full(65535)]);
/// assert_eq!(open.size(), 1025u32);
/// assert!(open.remove(Full(80)) && open.contains(65535.into()));
/// assert_eq!(open.to_string(), "{[0..79][81..1023][65535..65535]}");
/// ```
#[doc(inline)]
pub use proved::width::full::Full;
#[doc(inline)]
pub use proved::width::{SizeNumber, Width};
#[doc(inline)]
pub use set::{IntervalSet, PagedSet};

/// The size of a set, for glob imports: [`SizeNumber`] has a method `number` as [`Width`] has, and the integers are both.
pub trait Size: SizeNumber {
    /// Returns the size as a number.
    ///
    /// ```
    /// use intervallum::prelude::*;
    ///
    /// let a = IntervalSet::from(1..=9u8);
    /// assert_eq!((a.size().to_u128(), a.size().number(), a.lower().number()), (9, 9, 1));
    /// ```
    fn to_u128(self) -> u128 {
        self.number()
    }
}

impl<S: SizeNumber> Size for S {}

/// The page of the package, whose examples run with those of the docs.
#[cfg(doctest)]
#[doc = include_str!("../README.md")]
pub mod page {}
