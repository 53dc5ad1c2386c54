//! Sets in statics: one that is empty at first and grows, and one that is made at its first use.
use intervallum::{IntervalSet, PagedSet};
use std::sync::{LazyLock, Mutex, RwLock};

/// Ids that are in use. The empty set is a constant.
static USED: Mutex<IntervalSet<u32>> = Mutex::new(IntervalSet::empty());

/// Pages that were written since the last flush.
static DIRTY: RwLock<PagedSet<u64>> = RwLock::new(PagedSet::empty());

/// Days on which nobody works: of 2026, weekends and two others.
static CLOSED: LazyLock<IntervalSet<u16>> = LazyLock::new(|| {
    let weekends = (0..53).map(|week| 7 * week + 3..=7 * week + 4);
    weekends.chain([1..=1, 359..=360]).collect()
});

/// Returns the lowest id that is not in use.
fn new_id() -> Option<u32> {
    let mut used = USED.lock().unwrap();
    let id = used.gaps_within(1..).first()?;
    used.insert(id);
    Some(id)
}

pub fn main() {
    let ids: Vec<u32> = (0..5).filter_map(|_| new_id()).collect();
    let again = { USED.lock().unwrap().remove(ids[1]) }.then(new_id);
    assert_eq!((again.flatten(), ids[4] - ids[0]), (Some(ids[1]), 4));

    DIRTY.write().unwrap().extend([7..9, 100..101, 8..12]);
    let written = std::mem::take(&mut *DIRTY.write().unwrap());
    assert_eq!((written.to_string().as_str(), DIRTY.read().unwrap().is_empty()), ("{[7..11][100..100]}", true));

    assert!(CLOSED.contains(1) && CLOSED.includes(3..=4) && !CLOSED.contains(5));
    println!("ids {ids:?}; pages {written}; the first day after Christmas: {:?}", CLOSED.gaps_within(359..).first());
}
