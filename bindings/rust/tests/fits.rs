//! Fits from above and at multiples, closed gaps and moved members, of both kinds of sets beside plain lists of numbers.
use intervallum::proved::width::Width;
use intervallum::{Full, IntervalSet, PagedSet};
use std::fmt::Debug;

/// Sets of a type with numbers in a window, each of which is a member or not as the bits say.
fn sets<T: Width + Debug>(least: i128, bits: u32) -> (Vec<i128>, IntervalSet<T>) {
    let numbers: Vec<i128> = (0..14).filter(|i| bits >> i & 1 == 1).map(|i| least + i).collect();
    let set = numbers.iter().map(|number| T::from_number(*number).unwrap()).collect();
    (numbers, set)
}

/// Compares the calls of a set of each kind with what the list of its numbers says.
fn beside_a_list<T: Width + Debug>(least: i128, count: impl Fn(u8) -> T::Output) {
    let range =
        |first: i128, len: u8| T::from_number(first).unwrap()..=T::from_number(first + i128::from(len) - 1).unwrap();
    for bits in (0..1u32 << 14).step_by(101) {
        let (numbers, set) = sets::<T>(least, bits);
        let paged = PagedSet::from(&set);
        assert_eq!(set, paged);
        assert_eq!(paged, set);
        let has = |first: i128, len: u8| (first..first + i128::from(len)).all(|number| numbers.contains(&number));
        for len in 1..5 {
            let last = numbers.iter().rev().find(|first| has(**first, len)).map(|first| range(*first, len));
            assert_eq!((set.last_fit(count(len)), paged.last_fit(count(len))), (last.clone(), last), "{set:?}, {len}");
            for align in 1..5 {
                let is_fit = |first: &&i128| **first % i128::from(align) == 0 && has(**first, len);
                let first = numbers.iter().find(is_fit).map(|first| range(*first, len));
                assert_eq!(set.first_fit_aligned(count(len), count(align)), first, "{set:?}, {len}, {align}");
                assert_eq!(paged.first_fit_aligned(count(len), count(align)), first, "{set:?}, {len}, {align}");
            }
            let mut closed = numbers.clone();
            for pair in numbers.windows(2) {
                if pair[1] - pair[0] - 1 <= i128::from(len) {
                    closed.extend(pair[0] + 1..pair[1]);
                }
            }
            let closed: IntervalSet<T> = closed.into_iter().map(|number| T::from_number(number).unwrap()).collect();
            let (mut a, mut b) = (set.clone(), paged.clone());
            a.close_gaps(count(len));
            b.close_gaps(count(len));
            assert!(a == closed && b == closed, "{set:?}, {len}: {a:?}");
        }
        for by in [0, 1, 7] {
            let moved =
                numbers.iter().map(|number| T::from_number(number + i128::from(by))).collect::<Option<Vec<_>>>();
            let moved = moved.map(|values| values.into_iter().collect::<IntervalSet<T>>());
            assert_eq!(set.checked_shifted(by), moved);
            assert_eq!(paged.checked_shifted(by).map(|set| set.to_set()), moved);
            assert_eq!(moved.and_then(|set| set.checked_shifted(-by)), set.checked_shifted(by).map(|_| set.clone()));
        }
    }
}

#[test]
fn sets_beside_lists() {
    beside_a_list::<u8>(238, |n| n);
    beside_a_list::<i8>(-127, |n| n);
    beside_a_list::<i64>(-7, u64::from);
    beside_a_list::<Full<u16>>(65_521, u32::from);
    beside_a_list::<char>(i128::from(0xd7f8), u32::from);
}

#[test]
fn what_is_moved_out_of_the_limits_is_told() {
    assert_eq!(IntervalSet::from(1..=5u8).checked_shifted(250), None);
    assert_eq!(PagedSet::from(1..=5i8).checked_shifted(-129), None);
    assert_eq!(IntervalSet::<u64>::empty().checked_shifted(i64::MIN), Some(IntervalSet::empty()));
    assert_eq!(IntervalSet::from('\u{d7ff}'..='\u{d7ff}').shifted(1), IntervalSet::from('\u{e000}'..='\u{e000}'));
    let set = IntervalSet::<i64>::whole();
    assert_eq!((set.first_fit_aligned(1, u64::MAX), set.checked_last_fit(0)), (Some(0..=0), None));
    assert_eq!(set.last_fit(u64::MAX), Some(IntervalSet::<i64>::limits()));
    assert_eq!(set.size(), u64::MAX);
    assert_eq!(set.checked_first_fit_aligned(0, 1).or(set.checked_first_fit_aligned(1, 0)), None);
}
