//! Variables, added one by one.
use super::{check_domains, store_of};
use crate::compare::{made, set_of};

#[test]
fn a_variable_is_added_after_the_others() {
    let mut store = store_of::<i32>(&[&[(0, 9)]]);
    let index = made(store.add_variable(set_of(&[(3, 4)])));
    assert_eq!((index, store.has_empty()), (1, false));
    check_domains(&store, &["[0..9]", "[3..4]"]);
    let index = made(store.add_variable(set_of(&[])));
    assert_eq!((index, store.has_empty()), (2, true));
    check_domains(&store, &["[0..9]", "[3..4]", "{}"]);
}
