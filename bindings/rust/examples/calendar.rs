//! Bookings of rooms by minutes: who is free when, and the first time at which enough rooms are.
use intervallum::IntervalSet;
use std::collections::BTreeMap;

const HOUR: i32 = 60;

/// The minute of a day, from Monday 0:00 on.
fn at(day: i32, hour: i32, minute: i32) -> i32 {
    (day * 24 + hour) * HOUR + minute
}

pub fn main() {
    let mut busy: BTreeMap<&str, IntervalSet<i32>> = BTreeMap::new();
    for (room, from, to) in [
        ("blue", at(0, 9, 0), at(0, 10, 30)),
        ("blue", at(0, 10, 30), at(0, 12, 0)),
        ("green", at(0, 8, 0), at(0, 9, 30)),
        ("green", at(1, 9, 0), at(1, 17, 0)),
        ("red", at(0, 0, 0), at(4, 24, 0)),
    ] {
        let bookings = busy.entry(room).or_default();
        assert!(!bookings.overlaps(from..to), "{room} is taken");
        bookings.insert_interval(from..to);
    }
    assert_eq!(busy["blue"].interval_count(), 1, "bookings that touch are one run");
    assert!(busy["green"].overlaps(at(0, 9, 0)..at(0, 10, 0)));

    let working: IntervalSet<i32> = (0..5).map(|day| at(day, 8, 0)..at(day, 18, 0)).collect();
    let free = |room: &str| working.difference(&busy[room]);
    let both = free("blue") & free("green");
    let meeting = both.first_fit(3 * HOUR as u32).unwrap();
    assert_eq!((*meeting.start(), *meeting.end() + 1), (at(0, 12, 0), at(0, 15, 0)));
    assert_eq!(free("red"), IntervalSet::empty());
    let (any, all) = (IntervalSet::union_of(busy.values()), IntervalSet::intersection_of(busy.values()));
    assert_eq!((any.includes(at(0, 0, 0)..at(5, 0, 0)), all), (true, IntervalSet::from(at(0, 9, 0)..at(0, 9, 30))));
    let hours = |set: &IntervalSet<i32>| set.len() as f64 / f64::from(HOUR);
    println!(
        "blue is free for {} of {} hours; both are from minute {}",
        hours(&free("blue")),
        hours(&working),
        meeting.start()
    );
}
