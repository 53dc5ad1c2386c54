//! A calendar with names: who has a room on which day, what is in the way of a booking, and the days of one name.
use intervallum::IntervalMap;

pub fn main() {
    // days by their number in the year
    let mut blue: IntervalMap<u16, &str> = IntervalMap::new();
    blue.insert_if_free(61..=64, "anna").unwrap();
    blue.insert_if_free(68..=68, "ben").unwrap();
    let (days, name) = blue.insert_if_free(64..=70, "carl").unwrap_err();
    assert_eq!((days, *name), (61..=64, "anna"));

    // a booking that goes on where another one of the same name ends is one with it
    blue.insert_if_free(65..=66, "anna").unwrap();
    assert_eq!(blue.get_run(65), Some((61..=66, &"anna")));
    assert_eq!((blue.get(68), blue.get(67)), (Some(&"ben"), None));
    assert_eq!(blue.numbers_with(|name| *name == "anna").to_string(), "[61..66]");
    assert_eq!(blue.gaps_within(60..=70).to_string(), "{[60..60][67..67][69..70]}");
    assert_eq!(blue.first_fit(60..=90, 7), Some(69..=75));
    // ben gives his day to anna: it does not touch her others, so it is an entry of its own
    blue.insert(68..=68, "anna");
    for (days, name) in &blue {
        println!("{} to {}: {name}", days.start(), days.end());
    }
}
