//! The free pages of a disk, a million runs of them, which change one by one: a `PagedSet`.
use intervallum::{IntervalSet, PagedSet};

pub fn main() {
    // of 16 pages, 10 are free
    let mut free: PagedSet<u64> = (0..1_000_000u64).map(|i| 16 * i..16 * i + 10).collect();
    assert_eq!((free.interval_count(), free.size()), (1_000_000, 10_000_000));

    // 20,000 edits, each of which moves the runs of one page of the set
    let mut place = 1u64;
    for _ in 0..20_000 {
        place = place.wrapping_mul(6_364_136_223_846_793_005).wrapping_add(1_442_695_040_888_963_407);
        let page = (place >> 33) % 16_000_000;
        // takes the page, or gives it back
        if !free.remove(page) {
            assert!(free.insert(page));
        }
    }
    assert!(free.interval_count() > 1_000_000, "most pages that were taken split a run");
    assert!(free.insert_interval(16 * 500_000 + 10..16 * 500_001), "a file of 6 pages is deleted");
    let long = free.take_first_fit(20).unwrap();
    assert!(*long.end() - *long.start() == 19 && !free.overlaps(long.clone()));
    assert_eq!(free.rank(16_000_000), free.size(), "all lie below the end");

    // sets are combined with one of either kind; few runs are added in place
    let bad = IntervalSet::from([100..=101, 3_200_000..=3_200_004]);
    let usable = free.difference(&bad);
    assert!(usable.is_disjoint(&bad) && usable.len() <= free.len());
    free |= &bad;
    assert!(free.is_superset(&bad) && free.range(100..=101).eq([100, 101]));
    let upper = free.split_off(15_900_000);
    assert!(free.last() < Some(15_900_000) && upper.first() >= Some(15_900_000));
    println!(
        "{} free pages in {} runs below, {} in {} above",
        free.size(),
        free.interval_count(),
        upper.size(),
        upper.interval_count()
    );
}
