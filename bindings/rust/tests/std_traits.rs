//! The traits of Rust's std, of the root's sets.
use intervallum::{IntervalSet, proved};
use std::collections::HashSet;

type Set = IntervalSet<i32>;

fn is_sent_and_shared<T: Send + Sync + 'static>() {}

#[test]
fn sets_are_sent_copied_hashed_and_compared() {
    is_sent_and_shared::<Set>();
    is_sent_and_shared::<proved::IntervalSet<u64>>();
    is_sent_and_shared::<intervallum::set::IntoIter<i8>>();
    let a = Set::from([1..=2, 5..=6]);
    let known: HashSet<Set> = [a.clone(), Set::new(1, 6), Set::from([5, 6, 2, 1])].into();
    assert_eq!((known.len(), known.contains(&a)), (2, true));
    assert_eq!((Set::default(), a == Set::default()), (Set::empty(), false));
    let there = proved::IntervalSet::from(a.clone());
    assert!(*a.as_proved() == there && proved::IntervalSet::from(a.clone()) == there && Set::from(there) == a);
}

#[test]
fn texts_read_well() {
    let a = Set::from([1..=2, 5..=5]);
    assert_eq!((format!("{a}"), format!("{a:?}")), ("{[1..2][5..5]}".into(), "{1..=2, 5..=5}".into()));
    assert_eq!((format!("{}", Set::empty()), format!("{:?}", Set::empty())), ("{}".into(), "{}".into()));
    let said = std::panic::catch_unwind(|| assert_eq!(Set::new(1, 2), Set::new(1, 3))).unwrap_err();
    let said = said.downcast::<String>().unwrap();
    assert!(said.contains("left: {1..=2}") && said.contains("right: {1..=3}"), "{said}");
}

#[test]
fn sets_are_made_of_ranges_arrays_and_iterators() {
    let a = Set::new(3, 7);
    for made in [
        Set::from(3..=7),
        Set::from(3..8),
        Set::from([3, 5, 4, 7, 6]),
        Set::from([&7, &3, &4, &5, &6]),
        Set::from([(6, 7), (3, 5), (9, 8)]),
        Set::from([5..8, 3..5, 9..9]),
        a.as_proved().runs().iter().copied().collect(),
        [3..=3, 4..=7].into_iter().collect(),
        a.iter().collect(),
        a.runs().collect(),
        a.clone().into_iter().rev().collect(),
    ] {
        assert_eq!(made, a);
    }
    assert_eq!((Set::from(..), Set::from(..=2), Set::from(..3)), (Set::whole(), !Set::from(3..), !Set::from(3..)));
    let mut passed = 5..=5;
    assert_eq!((passed.next(), Set::from(passed)), (Some(5), Set::empty()), "a range that was iterated over is empty");
    let mut b = Set::empty();
    b.extend([3]);
    b.extend(&a);
    b.extend(a.runs());
    assert_eq!((&b - &b, b.iter().sum::<i32>()), (Set::new(-4, 4), 25));
    let mut sum = 0;
    for x in &b {
        sum += x;
    }
    for x in b {
        sum -= x;
    }
    assert_eq!(sum, 0);
}

#[test]
fn operators_have_each_form() {
    let (a, b) = (Set::from([1..=3, 6..=8]), Set::new(3, 6));
    macro_rules! forms {
        ($op:tt $assign:tt $b:expr, $reference:expr, $wanted:expr) => {{
            let mut by_value = a.clone();
            by_value $assign $b;
            let mut by_reference = a.clone();
            by_reference $assign $reference;
            for made in [by_value, by_reference, &a $op $reference, a.clone() $op $reference, &a $op $b, a.clone() $op $b] {
                assert_eq!(made, $wanted);
            }
        }};
    }
    forms!(| |= b.clone(), &b, Set::new(1, 8));
    forms!(& &= b.clone(), &b, Set::from([3, 6]));
    forms!(^ ^= b.clone(), &b, Set::from([1..=2, 4..=5, 7..=8]));
    forms!(+ += b.clone(), &b, Set::new(4, 14));
    forms!(- -= b.clone(), &b, Set::new(-5, 5));
    forms!(* *= b.clone(), &b, Set::from([3..=48]));
    forms!(+ += 2, 2, Set::from([3..=5, 8..=10]));
    forms!(- -= 2, 2, Set::from([-1..=1, 4..=6]));
    forms!(* *= -1, -1, Set::from([-8..=-6, -3..=-1]));
    let outside = Set::from(..1) | Set::from(4..6) | Set::from(9..);
    assert_eq!((!&a, !a), (outside.clone(), outside));
}
