//! A paged set beside a list of flags: 100,000 random edits, pops, fits, and the ends of a type.
use intervallum::proved::ivl_paged::PagedSet;
use intervallum::proved::prelude::*;
use intervallum::proved::{AllocError, Global};

const NUMBERS: usize = 4000;
const STEPS: u32 = 100_000;

/// A generator of random numbers: xorshift64*.
struct Random(u64);

impl Random {
    fn below(&mut self, end: u64) -> u64 {
        self.0 ^= self.0 >> 12;
        self.0 ^= self.0 << 25;
        self.0 ^= self.0 >> 27;
        (self.0.wrapping_mul(0x2545_f491_4f6c_dd1d) >> 33) % end
    }
}

/// Makes the flags of a range the same, as far as there are flags.
fn put_all(flags: &mut [bool], range: std::ops::Range<usize>, is_member: bool) {
    let end = range.end.min(flags.len());
    flags[range.start..end].fill(is_member);
}

/// Takes a value's flag away, and returns whether there was one.
fn pop_agrees(flags: &mut [bool], value: Option<i64>) -> bool {
    match value {
        Some(value) => std::mem::replace(&mut flags[value as usize], false),
        None => !flags.contains(&true),
    }
}

/// Compares what the set tells of each number with what the flags tell of it.
fn assert_agrees(set: &PagedSet<i64>, flags: &[bool]) {
    let mut below = 0u64;
    let mut last = None;
    for (value, &is_member) in (0i64..).zip(flags) {
        assert_eq!(set.contains(&value), is_member, "{value}");
        assert_eq!(set.rank(value), below, "{value}");
        assert_eq!(set.run_at(value).is_some(), is_member, "{value}");
        if is_member {
            assert_eq!((set.nth(below), set.next_from(value)), (Some(value), Some(value)));
            below += 1;
            last = Some(value);
        }
        assert_eq!(set.previous_to(value), last, "{value}");
    }
    assert_eq!((set.size(), set.nth(below), set.last()), (below, None, last));
    let mut next = None;
    for (value, &is_member) in flags.iter().enumerate().rev() {
        let value = value as i64;
        next = if is_member { Some(value) } else { next };
        assert_eq!(set.next_from(value), next, "{value}");
    }
    assert_eq!(set.first(), next);
}

/// Compares the runs from both ends with those of the list, which holds the same set.
fn assert_same_runs(set: &PagedSet<i64>, list: &IntervalSet<i64>) {
    assert!(set.iter().eq(list.iter().copied()));
    assert!(set.iter().rev().eq(list.iter().rev().copied()));
    assert_eq!((set.interval_count(), set.hull()), (list.interval_count(), list.hull()));
}

/// Makes one random edit of both, and compares the answers.
fn edit(set: &mut PagedSet<i64>, flags: &mut [bool], random: &mut Random) -> Result<(), AllocError> {
    let place = random.below(NUMBERS as u64) as usize;
    let end = place + if random.below(100) == 0 { 900 } else { 9 };
    let (value, upper) = (place as i64, end.min(NUMBERS) as i64 - 1);
    let had = flags[place];
    match random.below(200) {
        0 => {
            set.insert_interval(Interval::new(value, upper))?;
            put_all(flags, place..end, true);
        }
        1 => {
            set.remove_interval(Interval::new(value, upper))?;
            put_all(flags, place..end, false);
        }
        2 => assert!(pop_agrees(flags, set.pop_first())),
        3 => assert!(pop_agrees(flags, set.pop_last())),
        kind if kind < 100 => {
            assert_eq!(set.insert(value)?, !had);
            flags[place] = true;
        }
        _ => {
            assert_eq!(set.remove(value)?, had);
            flags[place] = false;
        }
    }
    Ok(())
}

#[test]
fn random_edits_agree_with_flags() -> Result<(), AllocError> {
    let mut set = PagedSet::new(Global);
    let mut flags = [false; NUMBERS];
    let mut random = Random(7);
    for step in 0..STEPS {
        edit(&mut set, &mut flags, &mut random)?;
        if step % 5000 == 0 {
            assert_agrees(&set, &flags);
            assert_same_runs(&set, &set.to_set()?);
        }
    }
    assert_agrees(&set, &flags);
    let list = set.to_set()?;
    // so many that pages were split and joined
    assert!(list.interval_count() > 500);
    let again = PagedSet::of_set(&list)?;
    assert_agrees(&again, &flags);
    assert!(again == set);
    assert_same_runs(&again, &list);
    let mut copy = set.try_clone()?;
    assert!(copy == set && copy.interval_count() == set.interval_count());
    assert!(copy.pop_last().is_some() && copy != set);
    Ok(())
}

#[test]
fn pops_take_each_member_once() {
    let mut set = PagedSet::new(Global);
    for i in 0..900i64 {
        assert_eq!(set.insert(i * 2), Ok(true));
    }
    for i in 0..400i64 {
        assert_eq!(set.pop_first(), Some(i * 2));
        assert_eq!(set.pop_last(), Some(1798 - i * 2));
    }
    assert_eq!((set.size(), set.hull(), set.interval_count()), (100, Interval::new(800, 998), 100));
    for i in 400..500i64 {
        assert_eq!(set.pop_first(), Some(i * 2));
    }
    assert_eq!((set.pop_first(), set.pop_last(), set.interval_count()), (None, None, 0));
}

/// The lowest five members in a row.
fn lowest_five(flags: &[bool]) -> Option<Interval<i64>> {
    let place = flags.windows(5).position(|five| !five.contains(&false))? as i64;
    Some(Interval::new(place, place + 4))
}

#[test]
fn fits_agree_with_flags() {
    let mut set = PagedSet::new(Global);
    let mut flags = [true; 3000];
    assert_eq!(set.insert_interval(Interval::new(0i64, 2999)), Ok(()));
    let mut random = Random(3);
    for _ in 0..600 {
        let place = random.below(3000);
        assert!(set.remove(place as i64).is_ok());
        flags[place as usize] = false;
    }
    for _ in 0..500 {
        let fit = lowest_five(&flags);
        assert_eq!((set.first_fit(5), set.first_fit_from(i64::MIN, 5)), (fit, fit));
        assert_eq!(set.take_first_fit(5), fit);
        if let Some(run) = fit {
            let lower = run.lower_bound() as usize;
            put_all(&mut flags, lower..lower + 5, false);
        }
    }
    assert_agrees(&set, &flags);
    assert_eq!(set.take_first_fit(5), None);
}

/// Fills a set from the least number of its type to the greatest, takes both off, puts them back, and empties it.
fn assert_reaches_the_ends<B: Width>() {
    let (least, greatest) = (B::min_value(), B::max_value());
    let mut set: PagedSet<B> = PagedSet::new(Global);
    assert_eq!(set.insert_interval(Interval::new(least, greatest)), Ok(()));
    let size = greatest.number().abs_diff(least.number()) + 1;
    assert_eq!(set.size().number(), size);
    assert!(set.first() == Some(least) && set.last() == Some(greatest));
    assert!(set.pop_first() == Some(least) && set.pop_last() == Some(greatest));
    assert!(!set.contains(&least) && !set.contains(&greatest) && set.size().number() == size - 2);
    assert!(set.next_from(greatest).is_none() && set.previous_to(least).is_none());
    assert!(set.insert(greatest) == Ok(true) && set.insert(least) == Ok(true));
    assert!(set.interval_count() == 1 && set.hull() == Interval::new(least, greatest));
    assert!(set.nth(set.rank(greatest)) == Some(greatest));
    assert_eq!(set.remove_interval(Interval::new(least, greatest)), Ok(()));
    assert!(set.is_empty());
}

#[test]
fn the_ends_of_each_type() {
    assert_reaches_the_ends::<u8>();
    assert_reaches_the_ends::<u16>();
    assert_reaches_the_ends::<u32>();
    assert_reaches_the_ends::<u64>();
    assert_reaches_the_ends::<usize>();
    assert_reaches_the_ends::<i8>();
    assert_reaches_the_ends::<i16>();
    assert_reaches_the_ends::<i32>();
    assert_reaches_the_ends::<i64>();
    assert_reaches_the_ends::<isize>();
}

#[test]
fn the_ends_of_a_type() {
    let mut set: PagedSet<u8> = PagedSet::new(Global);
    assert_eq!(set.insert_interval(Interval::new(0, 254)), Ok(()));
    assert_eq!((set.first(), set.last(), set.size()), (Some(0), Some(254), 255));
    assert_eq!((set.pop_first(), set.pop_last()), (Some(0), Some(254)));
    assert_eq!(set.insert_interval(Interval::new(254, 254)), Ok(()));
    assert_eq!((set.next_from(255), set.previous_to(255)), (None, Some(254)));
    assert_eq!((set.rank(255), set.run_at(0)), (254, None));
    assert_eq!(set.to_string(), "[1..254]");
    assert!(set.remove(9) == Ok(true) && set.interval_count() == 2);
    assert_eq!(set.to_string(), "{[1..8][10..254]}");
    set.clear();
    assert_eq!(set.to_string(), "{}");
    assert!(set.hull().is_empty() && set.interval_count() == 0);
}
