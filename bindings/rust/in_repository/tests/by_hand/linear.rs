//! Linear rules beside what the sums of plain numbers say: each relation, over domains from -3 to 3.
use crate::compare::{check, made, set_of};
use intervallum::proved::interval_set::IntervalSet;
use intervallum::proved::ivl_linear::linear::losses::{lone_loss, takes_nothing};
use intervallum::proved::ivl_linear::linear::narrowing::narrow;
use intervallum::proved::ivl_linear::linear::{Relation, Term, first_unknown, is_light, is_over_different};
use intervallum::proved::ops::Contains;

/// The members of a domain: bit `k` is set for the number `k - 3`.
type Flags = u8;

const ALL: Flags = 0x7f;

/// The numbers of a domain.
fn numbers(flags: Flags) -> impl Iterator<Item = i64> {
    (0..7).filter(move |k| flags >> k & 1 == 1).map(|k| k - 3)
}

fn domain_of(flags: Flags) -> IntervalSet<i32> {
    set_of(&numbers(flags).map(|v| (v as i32, v as i32)).collect::<Vec<_>>())
}

fn flags_of(set: &IntervalSet<i32>) -> Flags {
    (0..7).filter(|k| set.contains(&(k - 3))).map(|k| 1 << k).sum()
}

/// The sums that terms have: bit `60 + s` is set for the sum `s`.
fn sums(parts: impl Iterator<Item = (i64, Flags)>) -> u128 {
    parts.fold(1 << 60, |sums, (coefficient, flags)| {
        let moved = |by: i64| if by < 0 { sums >> -by } else { sums << by };
        numbers(flags).map(|v| moved(coefficient * v)).fold(0, |all, some| all | some)
    })
}

/// Whether one of these sums and a number satisfies a relation, where the variable that tells may have these numbers.
fn is_met(relation: Relation, sums: u128, own: i64, told: Flags) -> bool {
    (-60..60).filter(|s| sums >> (s + 60) & 1 == 1).map(|s| s + own).any(|sum| match relation {
        Relation::AtMost(bound) => sum <= bound,
        Relation::AtLeast(bound) => sum >= bound,
        Relation::Differs(number) => sum != number,
        Relation::Tells { bound, .. } => numbers(told).any(|b| b == i64::from(sum <= bound)),
    })
}

/// What a rule leaves of domains: the first are those of the terms, and after them may come that of the variable that tells.
fn left(coefficients: &[i64], relation: Relation, domains: &[Flags]) -> Vec<Flags> {
    let told = domains.get(coefficients.len()).copied().unwrap_or(0);
    let parts = || coefficients.iter().copied().zip(domains.iter().copied());
    let keep = |flags: Flags, is_kept: &dyn Fn(i64) -> bool| {
        numbers(flags).filter(|v| is_kept(*v)).map(|v| 1 << (v + 3)).sum::<Flags>()
    };
    let mut all: Vec<Flags> = (0..coefficients.len())
        .map(|k| {
            let others = sums(parts().enumerate().filter(|(i, _)| *i != k).map(|(_, part)| part));
            keep(domains[k], &|v| is_met(relation, others, coefficients[k] * v, told))
        })
        .collect();
    if let Relation::Tells { .. } = relation {
        all.push(keep(told, &|b| is_met(relation, sums(parts()), 0, (1 << (b + 3)) & ALL)));
    }
    all
}

/// How many rules took something, took nothing and were known to, and took one number and were known to.
#[derive(Default)]
struct Counts([u64; 3]);

/// Narrowing leaves what the sums say, and what is told of it holds.
fn check_one(coefficients: &[i64], relation: Relation, domains: &[Flags], counts: &mut Counts) {
    let term = |(variable, coefficient): (usize, &i64)| Term { coefficient: *coefficient, variable };
    let terms: Vec<Term> = coefficients.iter().enumerate().map(term).collect();
    assert!(is_light(&terms) && is_over_different(&terms, relation));
    assert!(first_unknown(&terms, relation, domains.len()).is_none());
    let mut sets: Vec<IntervalSet<i32>> = domains.iter().copied().map(domain_of).collect();
    let mut wanted = left(coefficients, relation, domains);
    wanted.extend(&domains[wanted.len()..]);
    if takes_nothing(&sets, &terms, relation) {
        check(wanted.as_slice(), domains);
        counts.0[1] += 1;
    }
    if let Some((i, value)) = lone_loss(&sets, &terms, relation) {
        let mut rest = domains.to_vec();
        rest[i] &= !(1 << (value + 3));
        assert!(rest != domains && rest[i] != 0);
        check(&wanted, &rest);
        counts.0[2] += 1;
    }
    let lost = made(narrow(&mut sets, &terms, relation));
    check(sets.iter().map(flags_of).collect::<Vec<_>>(), wanted.clone());
    check(lost, wanted != domains);
    counts.0[0] += u64::from(lost);
}

/// The relations at some numbers; the variable that tells comes after so many terms.
fn relations(count: usize) -> Vec<Relation> {
    let at = |bound| {
        [
            Relation::AtMost(bound),
            Relation::AtLeast(bound),
            Relation::Differs(bound),
            Relation::Tells { variable: count, bound },
        ]
    };
    [-4, 0, 3].into_iter().flat_map(at).collect()
}

/// The domains of the variable that tells which are tried.
const TOLD: [Flags; 5] = [0, 0b001_0000, 0b000_1000, 0b001_1000, ALL];

/// Each relation, over these domains.
fn check_each(coefficients: &[i64], domains: &[Flags], counts: &mut Counts) {
    for relation in relations(coefficients.len()) {
        if let Relation::Tells { .. } = relation {
            for told in TOLD {
                check_one(coefficients, relation, &[domains, &[told]].concat(), counts);
            }
        } else {
            check_one(coefficients, relation, domains, counts);
        }
    }
}

/// Each kind of answer was seen.
fn check_counts(counts: &Counts) {
    assert!(counts.0.iter().all(|count| *count > 100), "{:?}", counts.0);
}

#[test]
fn a_term_alone_over_all_domains() {
    let mut counts = Counts::default();
    for coefficient in -4..=4 {
        for flags in 0..=ALL {
            check_each(&[coefficient], &[flags], &mut counts);
        }
    }
    check_counts(&counts);
}

#[test]
fn two_terms_over_all_domains() {
    let mut counts = Counts::default();
    for coefficients in [[1, 1], [2, -3], [0, 4]] {
        for first in 0..=ALL {
            for second in (0..=ALL).step_by(if cfg!(debug_assertions) { 5 } else { 1 }) {
                check_each(&coefficients, &[first, second], &mut counts);
            }
        }
    }
    check_counts(&counts);
}

#[test]
fn three_terms_over_all_intervals() {
    let intervals: Vec<Flags> =
        (0..7).flat_map(|low| (low..7).map(move |high| ALL >> (6 - high) & (ALL << low))).chain([0]).collect();
    let step = if cfg!(debug_assertions) { 7 } else { 1 };
    let mut counts = Counts::default();
    for coefficients in [[1, 1, -1], [2, -3, 1]] {
        for first in &intervals {
            for second in &intervals {
                for third in intervals.iter().step_by(step) {
                    check_each(&coefficients, &[*first, *second, *third], &mut counts);
                }
            }
        }
    }
    check_counts(&counts);
}

#[test]
fn four_terms_over_many_domains() {
    let mut state = 82_u64;
    let mut next = move || {
        state = state.wrapping_mul(6_364_136_223_846_793_005).wrapping_add(1_442_695_040_888_963_407);
        (state >> 33) as Flags
    };
    let mut counts = Counts::default();
    for round in 0..if cfg!(debug_assertions) { 4_000 } else { 40_000 } {
        let mut coefficients = [0; 4];
        for coefficient in &mut coefficients {
            *coefficient = i64::from(next() % 9) - 4;
        }
        // every third rule is over single numbers but for one variable
        let narrow = |flags: Flags, k: usize| if round % 3 == 0 && k > 0 { 1 << (flags % 7) } else { flags & ALL };
        let domains: Vec<Flags> = (0..4).map(|k| narrow(next(), k)).collect();
        check_each(&coefficients, &domains, &mut counts);
    }
    check_counts(&counts);
}

#[test]
fn no_sum_overflows_at_the_ends_of_the_type() {
    let whole = || set_of(&[(i64::MIN + 1, i64::MAX)]);
    let terms = [Term { coefficient: 1 << 59, variable: 0 }, Term { coefficient: -(1 << 59), variable: 1 }];
    assert!(is_light(&terms));
    for relation in [Relation::AtMost(i64::MIN), Relation::AtLeast(i64::MAX), Relation::Differs(i64::MIN)] {
        let mut sets = [whole(), whole()];
        made(narrow(&mut sets, &terms, relation));
        let is_whole = sets[0] == whole();
        check(is_whole, relation == Relation::Differs(i64::MIN));
    }
    let mut sets = [set_of(&[(i64::MAX, i64::MAX)]), whole()];
    made(narrow(&mut sets, &terms, Relation::AtMost(0)));
    check(sets[1].contains(&(i64::MAX - 1)), false);
    check(sets[1].contains(&i64::MAX), true);
    assert!(!is_light(&[terms[0], terms[1], Term { coefficient: 1, variable: 2 }]));
}
