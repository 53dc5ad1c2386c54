//! Each request for memory of the calls of linear rules is refused in turn: the call tells it, and the domains are unchanged. Where no
//! member is lost, none is made.
use intervallum::proved::ivl_linear::linear::narrowing::{narrow, rest_of_teller, rest_of_term};
use intervallum::proved::ivl_linear::linear::sums::ends_of;
use intervallum::proved::ivl_linear::linear::{Relation, Term};
use intervallum::proved::prelude::*;
use intervallum::proved::{AllocError, Global};

mod memory;
use memory::{Watched, cost, refusing};

#[global_allocator]
static ALLOCATOR: Watched = Watched;

type Domains = [IntervalSet<i32>; 3];

fn set(runs: &[(i32, i32)]) -> IntervalSet<i32> {
    runs.to_interval_set(Global).unwrap()
}

/// Two domains with gaps, and that of a variable that tells.
fn domains() -> Domains {
    [set(&[(0, 3), (5, 9)]), set(&[(4, 4)]), set(&[(0, 1)])]
}

/// `3 * x - 2 * y`, which goes from -8 to 19.
const TERMS: [Term; 2] = [Term { coefficient: 3, variable: 0 }, Term { coefficient: -2, variable: 1 }];

type Call = fn(&mut Domains) -> Result<bool, AllocError>;

/// Calls of which each makes a set that has lost a member.
const CALLS: [(&str, Call); 6] = [
    ("at most", |sets| narrow(sets, &TERMS, Relation::AtMost(4))),
    ("at least", |sets| narrow(sets, &TERMS, Relation::AtLeast(4))),
    ("differs", |sets| narrow(sets, &TERMS, Relation::Differs(1))),
    ("tells", |sets| narrow(sets, &TERMS, Relation::Tells { variable: 2, bound: 19 })),
    ("rest_of_term", |sets| {
        let ends = ends_of(&TERMS, &*sets);
        Ok(rest_of_term(&*sets, &TERMS, Relation::AtMost(4), ends, 0)?.is_some())
    }),
    ("rest_of_teller", |sets| {
        let ends = ends_of(&TERMS, &*sets);
        Ok(rest_of_teller(&*sets, 2, 19, ends)?.is_some())
    }),
];

#[test]
fn calls_that_are_refused_change_nothing() {
    for (name, call) in CALLS {
        let mut refused = 0;
        for number in 0.. {
            let mut sets = domains();
            let (made, is_refused) = refusing(number, || call(&mut sets));
            if !is_refused {
                assert_eq!(made, Ok(true), "{name}");
                break;
            }
            // only a request to give memory back may fail unnoticed
            assert!(made == Ok(true) || sets == domains(), "{name}: {number}");
            refused += usize::from(made.is_err());
        }
        assert!(refused > 0, "{name}");
    }
}

#[test]
fn two_domains_are_narrowed_or_none() {
    let terms = [TERMS[0], Term { coefficient: 3, variable: 1 }];
    let wide = || [set(&[(0, 3), (5, 9)]), set(&[(0, 3), (5, 9)])];
    let mut refused = 0;
    for number in 0.. {
        let mut sets = wide();
        let (made, is_refused) = refusing(number, || narrow(&mut sets, &terms, Relation::AtMost(18)));
        if !is_refused {
            assert!(made == Ok(true) && sets == [set(&[(0, 3), (5, 6)]), set(&[(0, 3), (5, 6)])]);
            break;
        }
        assert!(made == Ok(true) || sets == wide(), "{number}");
        refused += usize::from(made.is_err());
    }
    assert!(refused > 2, "{refused}");
}

#[test]
fn where_no_member_is_lost_no_memory_is_asked_for() {
    let relations =
        [Relation::AtMost(19), Relation::AtLeast(-8), Relation::Differs(2), Relation::Tells { variable: 2, bound: 4 }];
    for relation in relations {
        let mut sets = domains();
        let (made, told) = cost(|| narrow(&mut sets, &TERMS, relation));
        assert!(made == Ok(false) && told.allocations == 0, "{relation:?}: {told:?}");
    }
}
