//! Hands out ids, merges two calendars, and prints ranges.
use intervallum::IntervalSet;
use std::ops::RangeInclusive;

/// Takes the lowest `count` consecutive ids that are free.
fn take(free: &mut IntervalSet<u32>, count: u32) -> Option<RangeInclusive<u32>> {
    let ids = free.first_fit(count)?;
    free.remove_interval(ids.clone());
    Some(ids)
}

fn main() {
    let mut free = IntervalSet::from(1000..=1015u32);
    println!("{:?} {:?} {:?}", take(&mut free, 4), take(&mut free, 3), take(&mut free, 12));
    free.insert_interval(1001..1003);
    println!("free ids: {free}; the next is {:?}", free.next_from(0));

    // hours of one week, counted from Monday 0:00
    let blue = IntervalSet::from([9..=11, 33..=36, 57..=60u8]);
    let green = IntervalSet::from([(10, 13), (58, 58)]);
    println!("busy: {}, at once: {}", &blue | &green, &blue & &green);
    let free_for_both = (blue | green).gaps_within(8..66);
    for hours in free_for_both.runs().filter(|hours| hours.end() - hours.start() >= 4) {
        println!("from {} to {}", hours.start(), hours.end());
    }
    println!("ten hours from {:?}", free_for_both.first_fit(10).map(|hours| *hours.start()));
}
