//! Posts and their replies.
use super::{check_domains, store_of, sum};
use crate::compare::{made, set_of};
use intervallum::proved::Global;
use intervallum::proved::ivl_store::store::callers::all_distinct;
use intervallum::proved::ivl_store::store::{Post, Store, StoreFault};
use intervallum::proved::width::Width;
use intervallum::rattle::vec::Vec;
use std::fmt::Display;

// A constraint by its variables, or a variable and the runs that it is cut to.
enum Posted<'a, B> {
    Sum([usize; 3]),
    Cut(usize, &'a [(B, B)]),
}

// The replies to posts, or none, or the fault that they are refused for.
type Replies = Result<Option<&'static [bool]>, StoreFault>;

/// One post.
fn post_of<B: Width>(post: &Posted<B>) -> Post<B> {
    match *post {
        Posted::Sum(variables) => Post::Require(sum(variables)),
        Posted::Cut(variable, pairs) => Post::Restrict(variable, set_of(pairs)),
    }
}

/// The posts.
fn posts_of<B: Width>(posts: &[Posted<B>]) -> Vec<Post<B>> {
    let mut list = made(Vec::with_capacity(Global, posts.len()));
    for post in posts {
        let is_pushed = list.push(post_of(post)).is_ok();
        assert!(is_pushed, "memory is left");
    }
    list
}

/// Posts were answered by these replies, or by none, or refused for a fault.
fn check_told(answer: &Result<Option<Vec<bool>>, StoreFault>, replies: Replies) {
    let told = match answer {
        Ok(Some(told)) => Ok(Some(told.as_slice())),
        Ok(None) => Ok(None),
        Err(fault) => Err(*fault),
    };
    assert_eq!(told, replies);
}

/// The posts are answered by these replies, if each constraint has three variables, and leave these domains.
fn check_replies<B: Width + Display>(store: &mut Store<B>, posts: &[Post<B>], replies: Replies, texts: &[&str]) {
    check_told(&store.try_post_all(posts), replies);
    check_domains(store, texts);
}

/// The posts are answered by these replies, if each constraint has three variables, and turn the first domains into those
/// that are printed as these texts.
fn check_posts<B: Width + Display>(domains: &[&[(B, B)]], posts: &[Posted<B>], replies: Replies, texts: &[&str]) {
    let mut store = store_of(domains);
    check_replies(&mut store, &posts_of(posts), replies, texts);
}

// x, y and z, each from 0 to 9.
const THREE_DIGITS: [&[(i32, i32)]; 3] = [&[(0, 9)], &[(0, 9)], &[(0, 9)]];

const A_CUT_OF_THE_SUM: [Posted<'static, i32>; 2] = [Posted::Sum([0, 1, 2]), Posted::Cut(2, &[(0, 1)])];

#[test]
fn a_constraint_and_then_a_cut() {
    let texts = ["[0..1]", "[0..1]", "[0..1]"];
    let replies = Ok(Some([false, false].as_slice()));
    check_posts(&THREE_DIGITS, &A_CUT_OF_THE_SUM, replies, &texts);
}

const ANOTHER_CUT: [Posted<'static, i32>; 3] =
    [Posted::Sum([0, 1, 2]), Posted::Cut(2, &[(0, 1)]), Posted::Cut(0, &[(2, 3)])];

#[test]
fn a_cut_that_leaves_nothing() {
    let replies = Ok(Some([false, false, true].as_slice()));
    check_posts(&THREE_DIGITS, &ANOTHER_CUT, replies, &["{}"; 3]);
}

const CUTS_FIRST: [Posted<'static, i32>; 3] =
    [Posted::Cut(0, &[(2, 3)]), Posted::Cut(2, &[(0, 1)]), Posted::Sum([0, 1, 2])];

#[test]
fn the_same_in_another_order() {
    let replies = Ok(Some([false, false, true].as_slice()));
    check_posts(&THREE_DIGITS, &CUTS_FIRST, replies, &["{}"; 3]);
}

const THREE_BYTES_BESIDE_7: [&[(u8, u8)]; 4] = [&[(0, 254)], &[(7, 7)], &[(0, 254)], &[(0, 254)]];

// x + 7 = z, then z + z' = x for the last, and a cut of it
const TWO_SUMS: [Posted<'static, u8>; 3] =
    [Posted::Sum([0, 1, 2]), Posted::Sum([3, 1, 0]), Posted::Cut(3, &[(100, 120)])];

#[test]
fn constraints_of_earlier_posts_narrow_too() {
    let texts = ["[107..127]", "[7..7]", "[114..134]", "[100..120]"];
    let replies = Ok(Some([false, false, false].as_slice()));
    check_posts(&THREE_BYTES_BESIDE_7, &TWO_SUMS, replies, &texts);
}

const NATURAL: [&[(i64, i64)]; 3] = [&[(0, i64::MAX)], &[(0, i64::MAX)], &[(0, i64::MAX)]];

const A_CUT_TO_THE_END: [Posted<'static, i64>; 2] =
    [Posted::Cut(0, &[(i64::MAX - 1, i64::MAX)]), Posted::Sum([0, 1, 2])];

#[test]
fn wide_bounds() {
    let texts = ["[9223372036854775806..9223372036854775807]", "[0..1]", "[9223372036854775806..9223372036854775807]"];
    let replies = Ok(Some([false, false].as_slice()));
    check_posts(&NATURAL, &A_CUT_TO_THE_END, replies, &texts);
}

const UNKNOWN_CUT: [Posted<'static, i32>; 2] = [Posted::Cut(0, &[(2, 3)]), Posted::Cut(3, &[(2, 3)])];

const UNKNOWN_SUM: [Posted<'static, i32>; 2] = [Posted::Cut(0, &[(2, 3)]), Posted::Sum([0, 5, 4])];

#[test]
fn all_indexes_are_tested_first() {
    let fault = Err(StoreFault::Variable(3));
    check_posts(&THREE_DIGITS, &UNKNOWN_CUT, fault, &["[0..9]"; 3]);
    let fault = Err(StoreFault::Variable(5));
    check_posts(&THREE_DIGITS, &UNKNOWN_SUM, fault, &["[0..9]"; 3]);
}

const ONE_IN_TWO_PLACES: [Posted<'static, i32>; 2] = [Posted::Cut(0, &[(2, 3)]), Posted::Sum([0, 1, 0])];

#[test]
fn a_variable_in_two_places_is_refused_by_the_test() {
    assert!(!all_distinct(&posts_of(&ONE_IN_TWO_PLACES)));
    check_posts(&THREE_DIGITS, &ONE_IN_TWO_PLACES, Ok(None), &["[0..9]"; 3]);
}

#[test]
fn no_posts() {
    check_posts(&THREE_DIGITS, &[], Ok(Some(&[])), &["[0..9]"; 3]);
}
