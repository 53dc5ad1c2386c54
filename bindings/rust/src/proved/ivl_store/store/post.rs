// Written by bindings/rust/extract from crates/ivl_store/src/store/post.rt.
//! What is posted to a store.

#[allow(unused_imports)]
use crate::rattle::prelude::*;
use super::Constraint;
use crate::proved::intervallum::interval_set::IntervalSet;
use crate::proved::intervallum::width::Width;

/// A cut of one domain, or one more constraint.
pub enum Post<B: Width> {
    /// The domain of a variable keeps only the members in this set.
    Restrict(usize, IntervalSet<B>),
    /// The constraint holds, together with those posted before it.
    Require(Constraint),
}

impl<B: Width> Post<B> {
    /// Returns the first index of the post that is not below `count`, or `None` if all are.
    fn first_unknown(&self, count: usize) -> Option<usize> {
        match self {
            Post::Restrict(i, _) => { if *i >= count { Some(*i) } else { None } }
            Post::Require(c) => c.first_unknown(count),
        }
    }
}

/// Returns the first index of the posts that is not below `count`, or `None` if all are.
pub(super) fn first_unknown_post<B: Width>(posts: &[Post<B>], count: usize) -> Option<usize> {
    for post in posts {
        if let Some(i) = post.first_unknown(count) {
            return Some(i);
        }
    }
    None
}
