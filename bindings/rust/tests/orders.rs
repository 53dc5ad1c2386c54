//! The set of a list of intervals in every kind of order, below and above each length at which the way of sorting changes,
//! beside a walk over the list as std sorts it.
use intervallum::proved::Global;
use intervallum::proved::prelude::*;
use intervallum::proved::sweep::coalesce;

/// What a set of the pairs holds, by a plain walk.
fn runs<N: Copy + Ord>(pairs: &[(N, N)], touch: fn(N, N) -> bool) -> Vec<(N, N)> {
    let mut pairs: Vec<(N, N)> = pairs.iter().copied().filter(|(lower, upper)| lower <= upper).collect();
    pairs.sort();
    let mut runs: Vec<(N, N)> = Vec::new();
    for (lower, upper) in pairs {
        match runs.last_mut() {
            Some(last) if lower <= last.1 || touch(last.1, lower) => last.1 = last.1.max(upper),
            _ => runs.push((lower, upper)),
        }
    }
    runs
}

/// Lists of lower bounds of so many intervals, each in an order of its own.
fn orders(count: i64) -> Vec<(&'static str, Vec<i64>)> {
    let of = |place: &dyn Fn(i64) -> i64| (0..count).map(place).collect::<Vec<i64>>();
    let mixed = |i: i64| i * 7_919 % count.max(1);
    let far = |i: i64| if i % 3 == 0 { i64::MAX - 20 - mixed(i) } else { mixed(i) - i64::MAX / 2 };
    vec![
        ("ascending", of(&|i| 5 * i)),
        ("descending", of(&|i| -5 * i)),
        ("mixed", of(&|i| 5 * mixed(i))),
        ("mixed in halves", of(&|i| mixed(i) / 2)),
        ("one far above", of(&|i| if i == count / 2 { i64::MAX - 50 } else { 4 * mixed(i) })),
        ("one far below", of(&|i| if i == count / 2 { -i64::MAX } else { 4 * mixed(i) })),
        ("two heaps", of(&far)),
        ("the same", of(&|_| 7)),
        ("two that alternate", of(&|i| 9 * (i % 2))),
        ("squares", of(&|i| mixed(i) * mixed(i))),
        ("over all numbers", of(&|i| mixed(i).wrapping_mul(0x61c8_8646_80b5_83eb).max(-i64::MAX) / 2)),
    ]
}

macro_rules! of_type {
    ($name:ident, $type:ty, $of:expr) => {
        #[test]
        fn $name() {
            let of: fn(i64) -> $type = $of;
            for count in [0, 1, 2, 20, 21, 95, 96, 97, 500, 4_096, 131_072, 131_073] {
                for (order, lowers) in orders(count) {
                    // every seventh interval is empty
                    let pairs: Vec<($type, $type)> = (0..count)
                        .zip(lowers)
                        .map(|(i, lower)| (of(lower), of(lower).saturating_add((i % 4) as $type)))
                        .map(|(lower, upper)| (lower, upper.min(<$type as Width>::max_value())))
                        .enumerate()
                        .map(|(i, (lower, upper))| if i % 7 == 3 { (upper.max(1), 0) } else { (lower, upper) })
                        .collect();
                    let list: Vec<Interval<$type>> = pairs.iter().map(|pair| Interval::new(pair.0, pair.1)).collect();
                    let set = coalesce(Global, list.into()).unwrap();
                    let made: Vec<($type, $type)> = set.iter().map(|run| (run.lower(), run.upper())).collect();
                    assert!(made == runs(&pairs, |a, b| a.checked_add(1) == Some(b)), "{count} {order}");
                    assert!(pairs.as_slice().to_interval_set(Global).unwrap() == set, "{count} {order}");
                }
            }
        }
    };
}

of_type!(of_long_numbers, i64, |lower| lower.clamp(-i64::MAX, i64::MAX - 4));
of_type!(of_short_numbers, i8, |lower| (lower % 120) as i8);
of_type!(of_unsigned_numbers, u64, |lower| lower as u64 % (u64::MAX - 5));
of_type!(of_unsigned_bytes, u8, |lower| lower.rem_euclid(250) as u8);
