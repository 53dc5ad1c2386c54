//! Each request for memory of the calls above sets is refused in turn: searches, networks, sums of many pairs of runs. The call
//! tells it and leaves what it was given, or answers as with ample memory.
use intervallum::proved::Global;
use intervallum::proved::ivl_network::network::{Network, Settled};
use intervallum::proved::ivl_rules::rules::Rule;
use intervallum::proved::ivl_rules::rules::narrowing::{narrow, narrowed_at_places, narrowed_at_places_in};
use intervallum::proved::ivl_rules::rules::windows::{narrowed_to_window, narrowed_to_window_in};
use intervallum::proved::ivl_search::search::{Best, End, Limits, SearchFault, count, greatest, least, solutions};
use intervallum::proved::ivl_store::store::narrowed_sets::{
    LeftOfThree, narrowed_by, narrowed_by_sum, narrowed_by_sum_in, narrowed_to,
};
use intervallum::proved::ivl_store::store::{Constraint, Spares, Store, StoreFault};
use intervallum::proved::ivl_within::within::{
    Combined, differences_in_window, results_in_set, results_unless_all, sums_in_window,
};
use intervallum::proved::prelude::*;
use intervallum::proved::{AllocError, Interval};

mod memory;
use memory::{Watched, refusing};

#[global_allocator]
static ALLOCATOR: Watched = Watched;

type Set = IntervalSet<i64>;
type Made = fn() -> (Set, Set, Set);

/// Refuses each request of a call in turn, over what `make` gives anew, until it makes no more; `is_right` looks at the answer and
/// at what is left of the operand. Returns how many were refused, and how often that was told.
fn each_refused<S, T>(
    make: impl Fn() -> S,
    call: impl Fn(&mut S) -> T,
    is_right: impl Fn(&S, T, bool) -> bool,
) -> (usize, usize) {
    let (mut refused, mut told) = (0, 0);
    for number in 0.. {
        let mut given = make();
        let (made, is_refused) = refusing(number, || call(&mut given));
        let is_answer = is_right(&given, made, is_refused);
        if !is_refused {
            assert!(is_answer);
            break;
        }
        refused += 1;
        told += usize::from(!is_answer);
    }
    (refused, told)
}

/// Six variables from 0 to 5, whose sums have many solutions.
fn domains() -> Vec<Set> {
    (0..6).map(|_| Set::new(Global, 0, 5).unwrap()).collect()
}

const SUMS: [Constraint; 3] =
    [Constraint { x: 0, y: 1, z: 2 }, Constraint { x: 2, y: 3, z: 4 }, Constraint { x: 1, y: 3, z: 5 }];
const AMPLE: Limits = Limits { solutions: 1_000, nodes: 100_000 };

/// Whether an answer is that of ample memory; a search that finds none tells it.
fn is_answer<T>(made: Result<T, SearchFault>, wanted: impl Fn(T) -> bool) -> bool {
    match made {
        Ok(made) => {
            assert!(wanted(made));
            true
        }
        Err(fault) => {
            assert_eq!(fault, SearchFault::Memory);
            false
        }
    }
}

#[test]
fn searches() {
    let all = solutions(Global, &domains(), &SUMS, AMPLE).unwrap();
    let number = all.points.len();
    assert!(all.end == End::All && number > 20);
    let (refused, told) = each_refused(
        domains,
        |domains| solutions(Global, domains, &SUMS, AMPLE),
        |_, made, _| is_answer(made, |found| found.end == End::All && found.points == all.points),
    );
    assert!(refused > 100 && told > 100);
    let (refused, told) = each_refused(
        domains,
        |domains| count(Global, domains, &SUMS, AMPLE),
        |_, made, _| is_answer(made, |found| found == (number, End::All)),
    );
    assert!(refused > 40 && told > 40, "{refused}, {told}");
    let at_end = |best: Best<i64>, value| best.end == End::All && best.point.is_some_and(|point| point[4] == value);
    let (refused, told) = each_refused(
        domains,
        |domains| least(Global, domains, &SUMS, 4, AMPLE),
        |_, made, _| is_answer(made, |best| at_end(best, 0)),
    );
    assert!(refused > 10 && told > 10);
    let (refused, told) = each_refused(
        domains,
        |domains| greatest(Global, domains, &SUMS, 4, AMPLE),
        |_, made, _| is_answer(made, |best| at_end(best, 5)),
    );
    assert!(refused > 10 && told > 10);
}

/// A network of each kind of rule over domains with gaps, which has room for four rules and has them, with a mark before the last.
fn network() -> Network<i64> {
    let mut network = Network::new(Global);
    for start in 0..6 {
        let domain = [(start, start + 1), (start + 3, start + 5), (20 + start, 24)].to_interval_set(Global);
        network.add_variable(domain.unwrap()).unwrap();
    }
    for rule in
        [Rule::Shifted { x: 0, y: 1, by: 1 }, Rule::Differs { x: 1, y: 2, by: 0 }, Rule::AtMost { x: 3, y: 4, by: 2 }]
    {
        network.require(rule).unwrap();
    }
    assert_eq!(network.settle(1_000).unwrap(), Settled::All);
    network.mark().unwrap();
    network.require(Rule::Sum(SUMS[1])).unwrap();
    network
}

/// The domains and rules of a network.
fn seen(network: &Network<i64>) -> (Vec<Set>, Vec<Rule>) {
    (network.domains().iter().map(|domain| domain.try_clone().unwrap()).collect(), network.rules().to_vec())
}

#[test]
fn edits_of_a_network() {
    let before = seen(&network());
    let unless_told = |network: &Network<i64>, made: Result<bool, StoreFault>| match made {
        Ok(is_right) => {
            assert!(is_right);
            true
        }
        Err(fault) => {
            assert!(fault == StoreFault::Memory && seen(network) == before);
            false
        }
    };
    type Edit = fn(&mut Network<i64>) -> Result<bool, StoreFault>;
    let edits: [(&str, Edit); 5] = [
        ("require", |network| network.require(Rule::AtMost { x: 4, y: 0, by: 0 }).map(|()| network.rules().len() == 5)),
        ("restrict", |network| {
            let odd = [(1, 1), (3, 3), (5, 5)].to_interval_set(Global).map_err(|_| StoreFault::Memory)?;
            network.restrict(0, &odd).map(|()| network.domains()[0].is_subset(&odd))
        }),
        ("restrict_to_interval", |network| {
            network.restrict_to_interval(0, Interval::new(1, 5)).map(|()| network.domains()[0].upper() <= 5)
        }),
        ("reserve", |network| network.reserve(100, 100).map(|()| true).map_err(|_| StoreFault::Memory)),
        ("add_variable", |network| {
            let domain = Set::new(Global, 7, 9).map_err(|_| StoreFault::Memory)?;
            network.add_variable(domain).map(|place| place == 6).map_err(|_| StoreFault::Memory)
        }),
    ];
    for (name, edit) in edits {
        let (refused, told) = each_refused(network, edit, |network, made, _| unless_told(network, made));
        assert!(refused > 0 && told > 0, "{name}: {refused}, {told}");
    }
}

#[test]
fn a_network_that_settles_can_be_taken_back_and_goes_on() {
    let mut whole = network();
    assert_eq!(whole.settle(1_000).unwrap(), Settled::All);
    let after = seen(&whole);
    type Settle = fn(&mut Network<i64>) -> Result<Settled, StoreFault>;
    let settles: [(&str, Settle); 3] = [
        ("settle", |network| network.settle(1_000)),
        ("settle_within", |network| network.settle_within(1_000)),
        ("settle_unless_empty", |network| network.settle_unless_empty(1_000)),
    ];
    for (name, settle) in settles {
        let (refused, told) = each_refused(network, settle, |network, made, _| {
            let mut again = network.domains().iter().zip(&after.0);
            // what was narrowed so far stays, and lost nothing
            assert!(again.all(|(domain, end)| end.is_subset(domain)));
            made.is_ok_and(|settled| settled == Settled::All && seen(network) == after)
        });
        assert!(refused > 2 && told > 2, "{name}: {refused}, {told}");
    }
    let mut back = network();
    assert!(refusing(1, || back.settle(1_000)).0.is_err());
    assert_eq!(back.settle(1_000).unwrap(), Settled::All);
    assert!(seen(&back) == after && back.undo_to(0) && back.rules().len() == 3);
}

#[test]
fn sums_of_many_pairs_of_runs() {
    let of = |step: i64| -> Set {
        let pairs: Vec<(i64, i64)> = (0..20).map(|i| (step * i, step * i + step / 2)).collect();
        pairs.as_slice().to_interval_set(Global).unwrap()
    };
    type Call = fn(&Set, &Set) -> Result<Set, AllocError>;
    let calls: [(&str, Call); 3] = [("+", |a, b| a + b), ("-", |a, b| a - b), ("*", |a, b| a * b)];
    for (name, call) in calls {
        let wanted = call(&of(4), &of(6)).unwrap();
        let (refused, told) = each_refused(
            || (of(4), of(6)),
            |(a, b)| call(a, b),
            |(a, b), made, _| {
                assert!(*a == of(4) && *b == of(6));
                made.is_ok_and(|set| set == wanted)
            },
        );
        assert!(refused > 3 && told > 3, "{name}: {refused}, {told}");
    }
}

/// So many runs, each a third of a step long.
fn thirds(count: i64, step: i64) -> Set {
    let pairs: Vec<(i64, i64)> = (0..count).map(|i| (step * i, step * i + step / 3)).collect();
    pairs.as_slice().to_interval_set(Global).unwrap()
}

/// Sums in a set of few runs, in order: the operands stay, and where all members are sums nothing is allocated.
#[test]
fn sums_in_order() {
    // more runs of sums than of the set; then one operand is a single number
    let cases: [Made; 2] =
        [|| (thirds(2, 90), thirds(12, 10), thirds(2, 3)), || (thirds(2, 90), thirds(20, 7), thirds(1, 1))];
    for operands in cases {
        let (x, a, b) = operands();
        let wanted = results_unless_all(&x, &a, &b, Combined::Sum).unwrap().unwrap();
        assert!(wanted.interval_count() > 4 && wanted.is_subset(&x));
        let (refused, told) = each_refused(
            operands,
            |(x, a, b)| results_unless_all(x, a, b, Combined::Sum),
            |given, made, _| {
                assert!(*given == operands());
                made.is_ok_and(|set| set.is_some_and(|set| set == wanted))
            },
        );
        assert!(refused > 1 && told > 1, "{refused}, {told}");
    }
    let cases: [Made; 2] =
        [|| (thirds(2, 6), thirds(3, 6), thirds(2, 6)), || (thirds(2, 6), thirds(3, 6), thirds(1, 1))];
    for all in cases {
        let (refused, _) = each_refused(
            all,
            |(x, a, b)| results_unless_all(x, a, b, Combined::Sum),
            |given, made, _| *given == all() && made.is_ok_and(|set| set.is_none()),
        );
        assert_eq!(refused, 0);
    }
}

/// Sums cut to a window or to a set, by pairs and run by run: the operands stay.
#[test]
fn sums_in_windows() {
    let operands = || (thirds(2, 50), thirds(40, 6), thirds(30, 9));
    let window = Interval::new(40, 60);
    type Call = fn(&Set, &Set, &Set) -> Result<Set, AllocError>;
    let calls: [(&str, Call); 3] = [
        ("sums_in_window", |_, a, b| sums_in_window(a, b, &Interval::new(40, 60))),
        ("differences_in_window", |_, a, b| differences_in_window(a, b, &Interval::new(40, 60))),
        ("results_in_set", |x, a, b| results_in_set(x, a, b, Combined::Sum)),
    ];
    for (name, call) in calls {
        let (x, a, b) = operands();
        let wanted = call(&x, &a, &b).unwrap();
        assert!(
            !wanted.is_empty()
                && (name.starts_with("results") || wanted.is_subset(&window.to_interval_set(Global).unwrap()))
        );
        let (refused, told) = each_refused(
            operands,
            |(x, a, b)| call(x, a, b),
            |given, made, _| {
                assert!(*given == operands());
                made.is_ok_and(|set| set == wanted)
            },
        );
        assert!(refused > 1 && told > 1, "{name}: {refused}, {told}");
    }
}

/// Narrowing by a rule writes nothing before all that it needs is made.
#[test]
fn a_domain_that_loses_an_interval() {
    let whole = || Set::new(Global, 0, 9).unwrap();
    let left = [(0, 2), (5, 9)].to_interval_set(Global).unwrap();
    let (refused, told) = each_refused(
        || Store::new(Global, vec![whole(), whole()].into()),
        |store| store.take_out(0, Interval::new(3, 4)),
        |store, made, is_refused| {
            assert!(store.domains()[1] == whole() && !store.has_empty());
            if made.is_err() {
                assert!(is_refused && store.domains()[0] == whole());
                return false;
            }
            assert!(store.domains()[0] == left);
            true
        },
    );
    assert!(refused > 0 && told == refused);
    let (refused, told) = each_refused(
        || Store::new(Global, vec![whole()].into()),
        |store| store.reserve(100),
        |store, made, is_refused| {
            assert!(store.domains() == [whole()] && made.is_err() == is_refused);
            made.is_ok()
        },
    );
    assert!(refused > 0 && told == refused);

    let mut store = Store::new(Global, vec![whole()].into());
    assert!(store.take_out(1, Interval::new(0, 9)).is_ok() && store.domains()[0] == whole());
    assert!(store.take_out(0, Interval::new(-3, 20)).is_ok() && store.has_empty());
    assert!(store.take_out(0, Interval::new(-3, 20)).is_ok() && store.has_empty());
    store.replace(0, whole());
    assert!(!store.has_empty());
}

type NarrowsAt = fn(&[Set; 3], &Rule) -> Result<LeftOfThree<i64>, AllocError>;

fn none() -> Spares<i64> {
    Spares::new(Global)
}

/// Copies of the domains, with what is left of them in place of those that lost members.
fn put(domains: &[Set; 3], rule: &Rule, left: LeftOfThree<i64>) -> [Set; 3] {
    let mut copies = domains.each_ref().map(|domain| domain.try_clone().unwrap());
    let c = rule.places();
    for (i, left) in [(c.x, left.0), (c.y, left.1), (c.z, left.2)] {
        if let Some(set) = left {
            copies[i] = set;
        }
    }
    copies
}

#[test]
fn narrowing_by_rules() {
    let given = || -> [Set; 3] {
        let runs = |step: i64| {
            let pairs: Vec<(i64, i64)> = (0..20).map(|i| (step * i, step * i + step / 2)).collect();
            pairs.as_slice().to_interval_set(Global).unwrap()
        };
        [runs(4), Set::new(Global, 8, 8).unwrap(), runs(6)]
    };
    let rules = [
        Rule::Sum(Constraint { x: 0, y: 1, z: 2 }),
        Rule::Shifted { x: 0, y: 2, by: 3 },
        Rule::AtMost { x: 0, y: 2, by: 90 },
        Rule::Differs { x: 0, y: 1, by: 0 },
    ];
    for rule in rules {
        let mut wanted = given();
        assert!(narrow(&mut wanted, &rule).unwrap());
        let (refused, told) = each_refused(
            given,
            |domains| narrow(domains, &rule),
            |domains, made, _| {
                assert!(if made.is_ok() { *domains == wanted } else { *domains == given() });
                made.is_ok_and(|lost| lost)
            },
        );
        assert!(refused > 0 && told == refused, "{rule:?}: {refused}, {told}");
        let mut calls: Vec<NarrowsAt> = vec![|sets, rule| narrowed_at_places(sets, rule), |sets, rule| {
            narrowed_at_places_in(sets, rule, &mut none())
        }];
        if rule.places().y != rule.places().z {
            calls.push(|[x, y, z], _| narrowed_by_sum(x, y, z));
            calls.push(|[x, y, z], _| narrowed_by_sum_in(x, y, z, &mut none()));
        }
        for call in calls {
            let (refused, told) = each_refused(
                given,
                |domains| call(domains, &rule),
                |domains, made, _| {
                    assert!(*domains == given());
                    made.is_ok_and(|left| put(domains, &rule, left) == wanted)
                },
            );
            assert!(refused > 0 && told == refused, "{rule:?}: {refused}, {told}");
        }
    }
    // one run, of which many are left
    let wide = || -> [Set; 3] { [Set::new(Global, -200, 0).unwrap(), given()[1].try_clone().unwrap(), thirds(20, 9)] };
    let (refused, told) = each_refused(
        wide,
        |[x, a, b]| narrowed_by(x, a, b, Combined::Difference),
        |domains, made, _| {
            assert!(*domains == wide());
            made.is_ok_and(|left| left.is_some())
        },
    );
    assert!(refused > 1 && told > 1);
    type Narrows = fn(&mut [Set; 3]) -> Result<Option<Set>, AllocError>;
    let narrowings: [Narrows; 3] = [
        |[x, a, _]| narrowed_to(x, a),
        |[x, _, _]| narrowed_to_window(x, Interval::new(9, 50)),
        |[x, _, _]| narrowed_to_window_in(x, Interval::new(9, 50), &mut none()),
    ];
    for narrowed in narrowings {
        let (refused, told) = each_refused(given, narrowed, |domains, made, _| {
            assert!(*domains == given());
            made.is_ok_and(|left| left.is_some())
        });
        assert!(refused > 0 && told > 0);
    }
    let (refused, told) =
        each_refused(|| Spares::<i64>::new(Global), |spares| spares.make_room(), |_, made, _| made.is_ok());
    assert!(refused == 1 && told == 1);
}
