//! What a broken condition gets: at the root, in every build, a panic that names the call, the condition and the values, or
//! `None`; in the proved face, in debug builds, a panic that names both.
use intervallum::proved::Global;
use intervallum::proved::{self, Interval, ops::*, width::SizeNumber, width::Width};
use intervallum::{Full, IntervalSet, PagedSet};
use std::panic::{UnwindSafe, catch_unwind};

type Set = IntervalSet<u8>;
type Small = IntervalSet<i8>;

/// The message of the panic of a call.
fn message<R>(call: impl FnOnce() -> R + UnwindSafe) -> String {
    match catch_unwind(call) {
        Ok(_) => String::from("no panic"),
        Err(panic) => match panic.downcast::<String>() {
            Ok(text) => *text,
            Err(panic) => panic.downcast_ref::<&str>().map_or(String::new(), |text| text.to_string()),
        },
    }
}

macro_rules! panics {
    ($($call:expr => $text:literal;)*) => {$(
        assert_eq!(message(|| $call), $text, "{}", stringify!($call));
    )*};
}

#[test]
fn the_root_panics_with_the_values() {
    let set = || Set::new(10, 20);
    panics! {
        Set::new(3, 255) => "IntervalSet::new(3, 255): the first bound must not be above the second, and both must be from 0 to 254";
        Set::new(8, 3) => "IntervalSet::new(8, 3): the first bound must not be above the second, and both must be from 0 to 254";
        Small::new(-128, 0) => "IntervalSet::new(-128, 0): the first bound must not be above the second, and both must be from -127 to 127";
        Set::singleton(255) => "IntervalSet::singleton(255): the value must be from 0 to 254";
        Set::empty().lower() => "IntervalSet::lower(): the set must not be empty, but is {}";
        Set::empty().upper() => "IntervalSet::upper(): the set must not be empty, but is {}";
        set().insert(255) => "IntervalSet::insert(255): the value must be from 0 to 254";
        set().insert_interval(250..=255) => "IntervalSet::insert_interval(250..=255): the numbers must be from 0 to 254";
        set().insert_interval(255) => "IntervalSet::insert_interval(255): the numbers must be from 0 to 254";
        set().first_fit(0) => "IntervalSet::first_fit(0): the count must be above 0";
        set().first_fit_from(12, 0) => "IntervalSet::first_fit_from(12, 0): the count must be above 0";
        set().best_fit(0) => "IntervalSet::best_fit(0): the count must be above 0";
        set().take_first_fit(0) => "IntervalSet::take_first_fit(0): the count must be above 0";
        Set::from(255..) => "IntervalSet::from(255): the numbers must be from 0 to 254";
        Small::from(..=-128) => "IntervalSet::from(-128): the numbers must be from -127 to 127";
        Set::from(vec![3..=4, 9..=255]) => "IntervalSet::from(9..=255): the numbers must be from 0 to 254";
        set().extend([1, 255]) => "IntervalSet::extend(255): the numbers must be from 0 to 254";
        [3..=4, 0..=255].into_iter().collect::<Set>() => "IntervalSet::from_iter(0..=255): the numbers must be from 0 to 254";
        Set::from([(1, 255)]) => "IntervalSet::from(1..=255): the numbers must be from 0 to 254";
        Set::from(9..=255) => "IntervalSet::from(9..=255): the numbers must be from 0 to 254";
        set() + Set::new(0, 235) => "IntervalSet::add(10..=20, 0..=235): the sums must be from 0 to 254";
        set() + 235 => "IntervalSet::add(10..=20, 235): the sums must be from 0 to 254";
        set() - Set::singleton(11) => "IntervalSet::sub(10..=20, 11): the differences must be from 0 to 254";
        set() - 11 => "IntervalSet::sub(10..=20, 11): the differences must be from 0 to 254";
        set() * Set::new(12, 13) => "IntervalSet::mul(10..=20, 12..=13): the products must be from 0 to 254";
        set() * 13 => "IntervalSet::mul(10..=20, 13): the products must be from 0 to 254";
        { let mut a = set(); a += 235; } => "IntervalSet::add(10..=20, 235): the sums must be from 0 to 254";
        { let mut a = set(); a -= set(); } => "IntervalSet::sub(10..=20, 10..=20): the differences must be from 0 to 254";
    }
}

#[test]
fn paged_sets_panic_with_the_values() {
    let address = |text: &str| text.parse::<std::net::Ipv4Addr>().unwrap();
    let set = || PagedSet::from(10..=20u8);
    panics! {
        set().insert(255) => "PagedSet::insert(255): the value must be from 0 to 254";
        set().insert_interval(250..=255) => "PagedSet::insert_interval(250..=255): the numbers must be from 0 to 254";
        set().first_fit(0) => "PagedSet::first_fit(0): the count must be above 0";
        set().first_fit_from(12, 0) => "PagedSet::first_fit_from(12, 0): the count must be above 0";
        set().take_first_fit(0) => "PagedSet::take_first_fit(0): the count must be above 0";
        set().last_fit(0) => "PagedSet::last_fit(0): the count must be above 0";
        set().first_fit_aligned(2, 0) => "PagedSet::first_fit_aligned(2, 0): the count and what it is aligned to must be above 0";
        set().shifted(-11) => "PagedSet::shifted(-11): the moved members must be from 0 to 254";
        set().extend([1, 255]) => "PagedSet::extend(255): the numbers must be from 0 to 254";
        [3..=4, 0..=255].into_iter().collect::<PagedSet<u8>>() => "PagedSet::from_iter(0..=255): the numbers must be from 0 to 254";
        PagedSet::from([(1, 255u8)]) => "PagedSet::from(1..=255): the numbers must be from 0 to 254";
        PagedSet::from(9..=255u8) => "PagedSet::from(9..=255): the numbers must be from 0 to 254";
        PagedSet::new('z', 'a') => "PagedSet::new('z', 'a'): the first bound must not be above the second, and both must be from '\\0' to '\\u{10ffff}'";
        IntervalSet::new(address("10.0.0.9"), address("10.0.0.1")) => "IntervalSet::new(10.0.0.9, 10.0.0.1): the first bound must not be above the second, and both must be from 0.0.0.0 to 255.255.255.255";
        PagedSet::from(address("10.0.0.9")..).first_fit_from(address("10.0.0.10"), 0) => "PagedSet::first_fit_from(10.0.0.10, 0): the count must be above 0";
        IntervalSet::from('b'..='y').first_fit_from('c', 0) => "IntervalSet::first_fit_from('c', 0): the count must be above 0";
        PagedSet::new(3u8, 255) => "PagedSet::new(3, 255): the first bound must not be above the second, and both must be from 0 to 254";
        PagedSet::singleton(-128i8) => "PagedSet::singleton(-128): the value must be from -127 to 127";
        PagedSet::<u8>::empty().lower() => "PagedSet::lower(): the set must not be empty, but is {}";
        PagedSet::<u8>::empty().upper() => "PagedSet::upper(): the set must not be empty, but is {}";
        set().best_fit(0) => "PagedSet::best_fit(0): the count must be above 0";
    }
    let mut set = set();
    assert_eq!(
        (set.checked_insert(255), set.checked_insert(20), set.checked_insert_interval(250..=255)),
        (None, Some(false), None)
    );
    assert_eq!(
        (set.checked_first_fit(0), set.checked_first_fit_from(12, 0), set.checked_take_first_fit(0)),
        (None, None, None)
    );
    assert_eq!((set.len(), set.to_string()), (11, "[10..20]".into()), "a call that returns None changes nothing");
}

#[test]
fn each_panic_has_a_checked_form() {
    let mut set = Set::new(10, 20);
    assert!(Set::checked_new(3, 255).is_none() && Set::checked_new(8, 3).is_none() && Set::checked_new(3, 8).is_some());
    assert!(Set::checked_singleton(255).is_none() && Set::checked_singleton(254).is_some());
    assert!(Set::empty().checked_lower().is_none() && Set::empty().checked_upper().is_none());
    assert_eq!((set.checked_insert(255), set.checked_insert(20)), (None, Some(false)));
    assert_eq!((set.checked_insert_interval(250..=255), set.checked_insert_interval(9..=9)), (None, Some(true)));
    assert_eq!((set.checked_first_fit(0), set.checked_first_fit(12)), (None, Some(Some(9..=20))));
    assert_eq!((set.checked_first_fit_from(12, 0), set.checked_first_fit_from(12, 10)), (None, Some(None)));
    assert_eq!((set.checked_extend([1, 255]), set.checked_extend([8])), (None, Some(())));
    assert!(Set::checked_from_iter([0..=255]).is_none() && Set::checked_from_iter([8..=20]) == Some(set.clone()));
    let (big, eight) = (Set::new(0, 247), Set::singleton(8));
    assert!(set.checked_add(&big).is_none() && set.checked_add(&eight) == Some(Set::new(16, 28)));
    assert!(set.checked_sub(&big).is_none() && set.checked_sub(&eight) == Some(Set::new(0, 12)));
    assert!(set.checked_mul(&big).is_none() && set.checked_mul(&eight) == Some(Set::new(64, 160)));
    assert!(set.checked_add_value(247).is_none() && set.checked_add_value(8) == set.checked_add(&eight));
    assert!(set.checked_sub_value(9).is_none() && set.checked_sub_value(8) == set.checked_sub(&eight));
    assert!(set.checked_mul_value(13).is_none() && set.checked_mul_value(2) == Some(Set::from([16..=40])));
    assert_eq!(set, Set::new(8, 20), "a call that returns None changes nothing");
}

#[test]
fn numbers_outside_the_range_are_no_members() {
    let set = Set::new(250, 254);
    assert!(!set.contains(255) && !set.includes(250..=255) && set.overlaps(254..=255) && !set.overlaps(255));
    assert_eq!(set.within(252..=255), Set::new(252, 254));
    assert_eq!(set.gaps_within(249..=255), Set::singleton(249));
    assert_eq!((set.next_from(255), set.previous_to(255), set.run_at(255)), (None, Some(254), None));
    assert_eq!((set.range(..).count(), set.range(253..=255).count(), set.range(255..).count()), (5, 2, 0));
    assert_eq!(Small::from(..), Small::whole());
    assert_eq!((Small::from(..0).len(), Small::from(120..).len(), Small::from(5..5).len()), (127, 8, 0));
}

#[test]
#[cfg(debug_assertions)]
fn debug_builds_test_the_conditions_of_the_proved_face() {
    use intervallum::proved::ivl_store::store::{Constraint, Post, Store};
    use intervallum::proved::ivl_within::within::{Combined, pair_in_window};
    use intervallum::proved::steps::{Probes, Walk};
    use intervallum::proved::sweep::{Op, images};

    let set = || proved::IntervalSet::<u8>::new(Global, 10, 20).unwrap();
    let run = || Interval::new(10u8, 20);
    let empty = || proved::IntervalSet::<u8>::empty(Global);
    panics! {
        Interval::new(0u8, 255) => "the condition of `new` is broken: Interval::in_range(lb, ub)";
        Interval::singleton(-128i8) => "the condition of `new` is broken: Interval::in_range(lb, ub)";
        Interval::<u8>::empty().lower() => "the condition of `lower` is broken: !self.is_empty()";
        Interval::<u8>::empty().upper() => "the condition of `upper` is broken: !self.is_empty()";
        run().hull(&255) => "the condition of `new` is broken: Interval::in_range(lb, ub)";
        run() + run() * 12 => "the condition of `add` is broken: self.fits_add(&rhs)";
        run() - 11 => "the condition of `sub` is broken: self.fits_sub(&rhs)";
        run() * 13 => "the condition of `mul` is broken: self.fits_mul(&rhs)";
        Width::add_in_range(254u8, 1) => "the condition of `add_in_range` is broken: Width::checked_add(self, other).is_some()";
        Width::sub_in_range(-127i8, 1) => "the condition of `sub_in_range` is broken: Width::checked_sub(self, other).is_some()";
        Width::mul_in_range(127i8, 2) => "the condition of `mul_in_range` is broken: Width::checked_mul(self, other).is_some()";
        proved::IntervalSet::new(Global, 8, 3) => "the condition of `new` is broken: Interval::in_range(lb, ub) && lb <= ub";
        proved::IntervalSet::singleton(Global, 255u8) => "the condition of `new` is broken: Interval::in_range(lb, ub) && lb <= ub";
        empty().lower() => "the condition of `lower` is broken: !self.is_empty()";
        empty().upper() => "the condition of `upper` is broken: !self.is_empty()";
        set().insert(255) => "the condition of `insert` is broken: Interval::in_range(value, value)";
        proved::IntervalSet::from_runs(vec![run(), run()].into()) => "the condition of `from_runs` is broken: Self::are_runs(&runs)";
        set().union(&255) => "the condition of `insert` is broken: Interval::in_range(value, value)";
        set().symmetric_difference(&255) => "the condition of `insert` is broken: Interval::in_range(value, value)";
        set().first_fit(0) => "the condition of `first_fit` is broken: count.number() > 0";
        set().first_fit_from(3, 0) => "the condition of `first_fit_from` is broken: count.number() > 0";
        set().best_fit(0) => "the condition of `best_fit` is broken: count.number() > 0";
        set().take_first_fit(0) => "the condition of `take_first_fit` is broken: count.number() > 0";
        set() + 235 => "the condition of `add` is broken: self.fits_add(&rhs)";
        &set() - &set() => "the condition of `sub` is broken: self.fits_sub(rhs)";
        set() * set() => "the condition of `mul` is broken: self.fits_mul(&rhs)";
        Walk::new(&empty()).advance() => "the condition of `advance` is broken: self.peek().is_some()";
        Probes::new(&set()).look(1) => "the condition of `look` is broken: i < self.len()";
        images(&set(), &set(), Op::Difference) => "the condition of `images` is broken: match op { Op::Sum => a.fits_add(b), Op::Difference => a.fits_sub(b), Op::Product => a.fits_mul(b) }";
        pair_in_window(run(), Interval::empty(), Combined::Sum, run()) => "the condition of `pair_in_window` is broken: !a.is_empty() && !b.is_empty() && !window.is_empty()";
        Store::<u8>::new(Global, vec![set()].into()).swap(1, None) => "the condition of `swap` is broken: i < self.domains.len()";
        Store::<u8>::new(Global, vec![set()].into()).cost_of(&Constraint { x: 0, y: 1, z: 2 }) => "the condition of `cost_of` is broken: c.first_unknown(self.domains.len()).is_none()";
        Store::<u8>::new(Global, vec![set()].into()).post_all(&[Post::Require(Constraint { x: 0, y: 0, z: 0 })]) => "the condition of `post_all` is broken: posts.iter().all(|post| match post { Post::Require(c) => c.distinct(), Post::Restrict(..) => true })";
    }
}

/// A bound and a size whose arithmetic is that of the traits.
#[derive(Clone, Copy, PartialEq, Eq, PartialOrd, Ord)]
struct Digit(u8);

impl Width for Digit {
    type Output = Digit;

    fn min_value() -> Digit {
        Digit(0)
    }

    fn max_value() -> Digit {
        Digit(8)
    }

    fn number(self) -> i128 {
        self.0.into()
    }

    fn from_number(number: i128) -> Option<Digit> {
        u8::try_from(number).ok().filter(|digit| *digit < 9).map(Digit)
    }
}

impl SizeNumber for Digit {
    fn number(self) -> u128 {
        self.0.into()
    }

    fn from_number(number: u128) -> Option<Digit> {
        u8::try_from(number).ok().filter(|digit| *digit < 10).map(Digit)
    }
}

#[test]
#[cfg(debug_assertions)]
fn debug_builds_test_the_arithmetic_of_bounds_and_sizes() {
    panics! {
        u8::width(&3, &255) => "the condition of `width` is broken: <Self as Width>::min_value() <= *lower && lower <= upper && *upper <= <Self as Width>::max_value()";
        i8::width(&-128, &0) => "the condition of `width` is broken: <Self as Width>::min_value() <= *lower && lower <= upper && *upper <= <Self as Width>::max_value()";
        Digit::width(&Digit(3), &Digit(2)) => "the condition of `width` is broken: Self::min_value() <= *lower && lower <= upper && *upper <= Self::max_value()";
        Width::add_in_range(127i8, 1) => "the condition of `add_in_range` is broken: Width::checked_add(self, other).is_some()";
        Width::sub_in_range(0u8, 1) => "the condition of `sub_in_range` is broken: Width::checked_sub(self, other).is_some()";
        Width::mul_in_range(127u8, 3) => "the condition of `mul_in_range` is broken: Width::checked_mul(self, other).is_some()";
        Full::<u8>::width(&Full(3), &Full(2)) => "the condition of `width` is broken: lower <= upper";
        Width::add_in_range(Full(255u8), Full(1)) => "the condition of `add_in_range` is broken: Width::checked_add(self, other).is_some()";
        Width::sub_in_range(Full(0u16), Full(1)) => "the condition of `sub_in_range` is broken: Width::checked_sub(self, other).is_some()";
        Width::mul_in_range(Full(65_536u32), Full(65_536)) => "the condition of `mul_in_range` is broken: Width::checked_mul(self, other).is_some()";
        Width::add_in_range(Digit(8), Digit(1)) => "the condition of `add_in_range` is broken: self.checked_add(other).is_some()";
        Width::sub_in_range(Digit(0), Digit(1)) => "the condition of `sub_in_range` is broken: self.checked_sub(other).is_some()";
        Width::mul_in_range(Digit(3), Digit(3)) => "the condition of `mul_in_range` is broken: self.checked_mul(other).is_some()";
        SizeNumber::add_in_range(255u8, 1) => "the condition of `add_in_range` is broken: SizeNumber::checked_add(self, other).is_some()";
        SizeNumber::add_in_range(Digit(9), Digit(1)) => "the condition of `add_in_range` is broken: self.checked_add(other).is_some()";
    }
}

#[test]
#[cfg(debug_assertions)]
fn debug_builds_test_the_conditions_of_linear_rules() {
    use intervallum::proved::ivl_linear::linear::losses::{lone_loss, takes_nothing};
    use intervallum::proved::ivl_linear::linear::narrowing::{narrow, rest_of_teller, rest_of_term};
    use intervallum::proved::ivl_linear::linear::sums::ends_of;
    use intervallum::proved::ivl_linear::linear::{Relation, Term};
    use intervallum::proved::{Global, IntervalSet};

    let domains = || [IntervalSet::<u8>::new(Global, 1, 2).unwrap()];
    let known = Term { coefficient: 1, variable: 0 };
    let unknown = [known, Term { coefficient: 1, variable: 1 }];
    let at_most = Relation::AtMost(3);
    panics! {
        narrow(&mut domains(), &unknown, at_most) => "the condition of `narrow` is broken: super::is_light(terms) && super::is_over_different(terms, relation) && super::first_unknown(terms, relation, domains.len()).is_none()";
        takes_nothing(&domains(), &[known, known], at_most) => "the condition of `takes_nothing` is broken: super::is_light(terms) && super::is_over_different(terms, relation) && super::first_unknown(terms, relation, domains.len()).is_none()";
        lone_loss(&domains(), &[Term { coefficient: i64::MAX, variable: 0 }], at_most) => "the condition of `lone_loss` is broken: super::is_light(terms) && super::is_over_different(terms, relation) && super::first_unknown(terms, relation, domains.len()).is_none()";
        ends_of(&unknown, &domains()) => "the condition of `ends_of` is broken: super::is_light(terms) && super::is_over_different(terms, super::Relation::AtMost(0)) && super::first_unknown(terms, super::Relation::AtMost(0), domains.len()).is_none()";
        rest_of_term(&domains(), &[known], at_most, None, 1) => "the condition of `rest_of_term` is broken: k < terms.len() && super::is_light(terms) && super::is_over_different(terms, relation) && super::first_unknown(terms, relation, domains.len()).is_none()";
        rest_of_teller(&domains(), 1, 3, None) => "the condition of `rest_of_teller` is broken: variable < domains.len()";
    }
}

#[test]
#[cfg(debug_assertions)]
fn debug_builds_test_the_conditions_of_pages_maps_and_searches() {
    use intervallum::proved::ivl_map::IntervalMap;
    use intervallum::proved::ivl_network::network::Network;
    use intervallum::proved::ivl_paged::PagedSet;
    use intervallum::proved::ivl_rules::rules::Rule;
    use intervallum::proved::ivl_rules::rules::narrowing::{
        lone_loss, narrow, narrowed_at_places, narrowed_at_places_in, takes_nothing,
    };
    use intervallum::proved::ivl_search::search::{Limits, count, greatest, least, rules, solutions};
    use intervallum::proved::ivl_store::store::{Constraint, Spares};

    let paged = || PagedSet::of_set(&proved::IntervalSet::new(Global, 10u8, 20).unwrap()).unwrap();
    let none = || PagedSet::<u8>::new(Global);
    let map = || IntervalMap::of(Global, Interval::new(10u8, 20), 'a').unwrap();
    let domains = || [proved::IntervalSet::new(Global, 0, 9).unwrap()];
    let twice = [Constraint { x: 0, y: 0, z: 0 }];
    let same = [Rule::Differs { x: 0, y: 0, by: 0 }];
    let limits = || Limits { solutions: 1, nodes: 9 };
    panics! {
        paged().first_fit(0) => "the condition of `first_fit` is broken: crate::proved::ivl_interval::width::SizeNumber::number(count) > 0";
        paged().first_fit_from(3, 0) => "the condition of `first_fit_from` is broken: crate::proved::ivl_interval::width::SizeNumber::number(count) > 0";
        paged().take_first_fit(0) => "the condition of `take_first_fit` is broken: crate::proved::ivl_interval::width::SizeNumber::number(count) > 0";
        none().lower() => "the condition of `lower` is broken: !self.is_empty()";
        none().upper() => "the condition of `upper` is broken: !self.is_empty()";
        paged().best_fit(0) => "the condition of `best_fit` is broken: crate::proved::ivl_interval::width::SizeNumber::number(count) > 0";
        map().first_fit(Interval::new(1, 9), 0).is_ok() => "the condition of `first_fit` is broken: crate::proved::ivl_interval::width::SizeNumber::number(count) > 0";
        Network::<u8>::new(Global).require(Rule::Shifted { x: 1, y: 1, by: 0 }) => "the condition of `require` is broken: rule.is_over_different()";
        narrow(&mut domains(), &Rule::Differs { x: 0, y: 1, by: 0 }) => "the condition of `narrow` is broken: rule.is_over_different() && rule.first_unknown(domains.len()).is_none()";
        takes_nothing(&domains(), &Rule::Differs { x: 0, y: 1, by: 0 }) => "the condition of `takes_nothing` is broken: rule.is_over_different() && rule.first_unknown(domains.len()).is_none()";
        lone_loss(&domains(), &Rule::Differs { x: 0, y: 1, by: 0 }) => "the condition of `lone_loss` is broken: rule.is_over_different() && rule.first_unknown(domains.len()).is_none()";
        narrowed_at_places(&domains(), &Rule::Differs { x: 0, y: 1, by: 0 }) => "the condition of `narrowed_at_places` is broken: rule.is_over_different() && rule.first_unknown(domains.len()).is_none()";
        narrowed_at_places_in(&domains(), &Rule::Differs { x: 0, y: 1, by: 0 }, &mut Spares::new(Global)) => "the condition of `narrowed_at_places_in` is broken: rule.is_over_different() && rule.first_unknown(domains.len()).is_none()";
        solutions(Global, &domains(), &twice, limits()) => "the condition of `solutions` is broken: all_distinct(constraints)";
        count(Global, &domains(), &twice, limits()) => "the condition of `count` is broken: all_distinct(constraints)";
        least(Global, &domains(), &twice, 0, limits()) => "the condition of `least` is broken: all_distinct(constraints)";
        greatest(Global, &domains(), &twice, 0, limits()) => "the condition of `greatest` is broken: all_distinct(constraints)";
        rules::solutions(Global, &domains(), &same, limits()) => "the condition of `solutions` is broken: all_different(rules)";
        rules::count(Global, &domains(), &same, limits()) => "the condition of `count` is broken: all_different(rules)";
        rules::least(Global, &domains(), &same, 0, limits()) => "the condition of `least` is broken: all_different(rules)";
        rules::greatest(Global, &domains(), &same, 0, limits()) => "the condition of `greatest` is broken: all_different(rules)";
    }
}

#[test]
#[cfg(all(debug_assertions, target_pointer_width = "64"))]
fn debug_builds_test_lists_of_runs() {
    use intervallum::proved::ivl_buffers::pair::PairI64;
    use intervallum::proved::ivl_buffers::{merging, reading, run_lists};

    let pair = |lower, upper| PairI64 { lower, upper };
    let (sorted, unsorted, touching) = ([pair(1, 2), pair(5, 6)], [pair(5, 6), pair(1, 3)], [pair(1, 2), pair(3, 4)]);
    let out = || [pair(0, 0); 8];
    panics! {
        merging::intersection(&sorted, &unsorted, &mut out()) => "the condition of `intersection` is broken: crate::proved::ivl_buffers::run_lists::is_run_list(a) && crate::proved::ivl_buffers::run_lists::is_run_list(b)";
        merging::difference(&unsorted, &sorted, &mut out()) => "the condition of `difference` is broken: crate::proved::ivl_buffers::run_lists::is_run_list(a) && crate::proved::ivl_buffers::run_lists::is_run_list(b)";
        merging::complement(&touching, &mut out()) => "the condition of `complement` is broken: crate::proved::ivl_buffers::run_lists::is_run_list(runs)";
        merging::union(&unsorted, &sorted, &mut out()) => "the condition of `union` is broken: crate::proved::ivl_buffers::run_lists::is_run_list(a) && crate::proved::ivl_buffers::run_lists::is_run_list(b)";
        merging::symmetric_difference(&sorted, &touching, &mut out()) => "the condition of `symmetric_difference` is broken: crate::proved::ivl_buffers::run_lists::is_run_list(a) && crate::proved::ivl_buffers::run_lists::is_run_list(b)";
        run_lists::leaves_free(pair(i64::MIN, 0), pair(5, 6)) => "the condition of `leaves_free` is broken: is_run_list(&[last]) && is_run_list(&[run])";
        reading::set_of(Global, &[pair(i64::MIN, 0)]) => "the condition of `set_of` is broken: are_inside(runs)";
    }
    assert_eq!(merging::union(&sorted, &sorted, &mut out()), 2);
}
