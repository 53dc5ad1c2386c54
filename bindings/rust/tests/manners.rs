//! What a user of the sets of std expects, of both kinds: names, traits, arguments, texts, and the place of a panic.
use intervallum::set::{IntoIter, IntoRuns, Iter, PagedIter, PagedRange, PagedRuns, PagedRunsWithin, Range, Runs};
use intervallum::{Full, IntervalSet, PagedSet};
use std::collections::{BTreeMap, BTreeSet, HashSet};
use std::fmt::Debug;
use std::ops::Bound::{self, Excluded, Included, Unbounded};
use std::panic::{self, UnwindSafe};
use std::sync::Mutex;
use std::time::{Duration, Instant};

static NO_LIST: IntervalSet<u32> = IntervalSet::empty();
static NO_PAGES: PagedSet<char> = PagedSet::empty();
static SHARED: Mutex<PagedSet<u64>> = Mutex::new(PagedSet::empty());

/// Fields can have the types of the iterators.
#[derive(Clone, Debug)]
#[allow(dead_code, clippy::type_complexity)]
struct Walks<'a> {
    list: (Iter<'a, u8>, Range<'a, u8>, Runs<'a, u8>, Runs<'a, u8>, IntoIter<u8>, IntoRuns<u8>),
    pages:
        (PagedIter<'a, u8>, PagedRange<'a, u8>, PagedRuns<'a, u8>, PagedRunsWithin<'a, u8>, IntoIter<u8>, IntoRuns<u8>),
}

fn is_shared<T: Send + Sync + Clone + Debug + Ord + std::hash::Hash + Default + UnwindSafe>() {}

#[test]
fn iterators_have_names() {
    let (a, b) = (IntervalSet::from([1..=2, 5..=9u8]), PagedSet::from([1..=2, 5..=9u8]));
    let walks = Walks {
        list: (a.iter(), a.range(2..6), a.runs(), a.runs_within(2..6), a.clone().into_iter(), a.clone().into_runs()),
        pages: (b.iter(), b.range(2..6), b.runs(), b.runs_within(2..6), b.clone().into_iter(), b.clone().into_runs()),
    };
    assert_eq!(
        format!("{:?}", walks.clone().list),
        "(Members [1..=2, 5..=9], Members [2..=2, 5..=5], Runs [1..=2, 5..=9], Runs [1..=2, 5..=9], \
         Members [1..=2, 5..=9], IntoRuns [1..=2, 5..=9])"
    );
    assert_eq!(
        format!("{:?}", walks.pages),
        "(Members [1..=2, 5..=9], Members [2..=2, 5..=5], PagedRuns [1..=2, 5..=9], PagedRunsWithin [1..=2, 5..=9], \
         Members [1..=2, 5..=9], IntoRuns [1..=2, 5..=9])"
    );
    let twice: Vec<u8> = a.iter().cycle().take(9).collect();
    assert_eq!(twice, [1, 2, 5, 6, 7, 8, 9, 1, 2]);
    assert_eq!((b.runs().len(), b.runs().size_hint(), b.iter().len()), (2, (2, Some(2)), 7));
}

/// An iterator that says of itself how many items it has at least, and at most, be it true or not.
struct Said<I>(I, (usize, Option<usize>));

impl<I: Iterator> Iterator for Said<I> {
    type Item = I::Item;

    fn next(&mut self) -> Option<I::Item> {
        self.0.next()
    }

    fn size_hint(&self) -> (usize, Option<usize>) {
        self.1
    }
}

#[test]
fn what_an_iterator_says_of_its_length_changes_no_set() {
    let pieces = [(5, 9), (1, 2), (20, 30u32), (3, 3)];
    let set = IntervalSet::from(pieces);
    let lengths = [0, 1, 3, 4, 5, 70_000, usize::MAX];
    for said in lengths.iter().flat_map(|&least| [(least, None), (least, Some(least))]) {
        let of = |pieces: [(u32, u32); 4]| Said(pieces.into_iter(), said);
        assert_eq!(of(pieces).collect::<IntervalSet<u32>>(), set, "{said:?}");
        assert_eq!(of(pieces).collect::<PagedSet<u32>>().to_set(), set, "{said:?}");
        let mut extended = IntervalSet::new(0, 5);
        extended.extend(Said(set.runs(), said));
        assert_eq!(extended, IntervalSet::from([(0, 9), (20, 30)]), "{said:?}");
        assert_eq!(Said([&set, &extended].into_iter(), said).collect::<IntervalSet<u32>>(), extended, "{said:?}");
        for place in 0..4 {
            let mut outside = pieces;
            outside[place].1 = u32::MAX;
            assert_eq!(IntervalSet::checked_from_iter(of(outside)), None, "{said:?} {place}");
        }
    }
}

/// Nobody waits for what comes after a number that no set can have.
#[test]
fn a_number_outside_the_limits_is_the_last_that_is_asked_for() {
    let mut asked = 0;
    let pieces = std::iter::from_fn(|| {
        asked += 1;
        Some(255u8)
    });
    assert_eq!(IntervalSet::checked_from_iter(pieces), None);
    assert_eq!(asked, 1);
}

#[test]
fn sets_stand_in_statics_and_are_shared() {
    is_shared::<IntervalSet<u8>>();
    is_shared::<PagedSet<char>>();
    assert!(NO_LIST.is_empty() && NO_PAGES.is_empty() && NO_LIST == IntervalSet::default());
    assert_eq!((NO_LIST.iter().next(), NO_PAGES.runs().next_back(), NO_LIST.hull()), (None, None, None));
    assert_eq!((NO_PAGES.range('a'..'x').count(), NO_LIST.runs_within(..).len(), NO_PAGES.size()), (0, 0, 0));
    assert_eq!((&NO_LIST | &NO_LIST, &NO_PAGES & &NO_PAGES), (IntervalSet::empty(), PagedSet::empty()));
    assert_eq!((NO_LIST.cmp(&NO_LIST.clone()), !NO_LIST.clone()), (std::cmp::Ordering::Equal, IntervalSet::whole()));
    assert!(NO_LIST.is_subset(&NO_LIST) && NO_LIST.is_disjoint(&IntervalSet::whole()) && !NO_PAGES.contains('a'));
    let mut none = NO_LIST.clone();
    none.clear();
    assert!(none == NO_LIST && !none.remove(3) && none.pop_first().is_none() && none.insert(3));
    assert_eq!((NO_LIST.as_proved().interval_count(), NO_LIST.to_string()), (0, "{}".to_owned()));
    std::thread::scope(|scope| {
        for i in 0..8u64 {
            scope.spawn(move || SHARED.lock().unwrap().insert_interval(100 * i..100 * i + 90));
        }
    });
    assert_eq!(SHARED.lock().unwrap().len(), 720);
}

macro_rules! for_both {
    ($($module:ident $Set:ident)*) => {$(mod $module {
        use super::*;

        type Set<T> = $Set<T>;

        #[test]
        fn sets_are_keys_in_order() {
            let sets = ["{}", "[1..2]", "[1..5]", "{[1..2][4..4]}", "[2..3]", "[1..1]", "{[1..2][9..9]}"];
            let sets = sets.map(|text| text.parse::<Set<i8>>().unwrap());
            let lists: BTreeSet<Vec<i8>> = sets.iter().map(|set| set.iter().collect()).collect();
            let sorted: BTreeMap<&Set<i8>, usize> = sets.iter().zip(1..).collect();
            assert!(sorted.keys().map(|set| set.iter().collect::<Vec<_>>()).eq(lists));
            let known: HashSet<Set<i8>> = sets.iter().cloned().collect();
            assert!(known.len() == 7 && known.contains(&Set::from([2, 3])));
        }

        #[test]
        fn sets_are_made_of_all_that_has_values() {
            let want = Set::from([1..=3, 7..=9u8]);
            let (ranges, pairs) = (vec![1..4, 7..10], [(7, 9), (1, 3)]);
            let sets = [Set::from(1..=3), Set::from(7..=8), Set::from([9, 1])];
            for made in [
                Set::from(ranges.clone()),
                Set::from(ranges.as_slice()),
                Set::from(&pairs[..]),
                pairs.iter().collect(),
                ranges.iter().collect(),
                [1..=3, 7..=9].iter().collect(),
                sets.iter().collect(),
                Set::from(sets.clone()),
                sets.to_vec().into(),
                sets.into_iter().collect(),
                [IntervalSet::from(1..=3), IntervalSet::from([(7, 9)])].iter().collect(),
                [PagedSet::from(1..=3), PagedSet::from([(7, 9)])].into_iter().collect(),
                Set::from([(Included(1), Excluded(4)), (Excluded(6), Included(9))]),
                IntervalSet::from(want.clone()).into(),
                PagedSet::from(want.clone()).into(),
                PagedSet::from(&IntervalSet::from([1..=3, 7..=9])).into(),
            ] {
                assert_eq!(made, want);
            }
            assert_eq!((Set::from((3, 5u8)), Set::from(&(3..6)), Set::from(&(3..=5))), (Set::new(3, 5), Set::new(3, 5), Set::new(3, 5)));
            assert_eq!(Set::from((Excluded(3u8), Unbounded)), Set::new(4, 254));
            assert_eq!(Set::<u8>::from((Unbounded::<u8>, Unbounded)), Set::whole());
        }

        #[test]
        fn values_of_other_types_become_arguments() {
            let mut free = Set::from(1024..=65_535u32);
            let port: u16 = 65_535;
            assert!(free.contains(port.into()) && free.remove(port.into()) && !free.contains(port.into()));
            let pid: i64 = 2000;
            assert!(free.contains(pid.try_into().unwrap()));
            let some = [80, 1024, 9000];
            assert_eq!(some.into_iter().filter(|&x| free.contains(x)).count(), 2);
            assert_eq!(free.range(..1026).collect::<Vec<_>>(), [1024, 1025]);
        }

        #[test]
        fn half_open_ranges_are_tested_at_each_door() {
            let empty = || Set::<u8>::empty();
            let all = Set::<u8>::whole();
            assert!(!all.includes(255..) && !all.overlaps(255..) && all.includes(254..) && all.includes(..255) && !all.includes(..=255));
            assert!(!all.includes(250..=255) && all.overlaps(250..=255) && all.includes(250..));
            assert_eq!((all.size_within(255..), all.range(255..).count(), all.within(255..)), (0, 0, empty()));
            assert_eq!((all.gaps_within(255..), all.runs_within(255..).count()), (empty(), 0));
            assert_eq!((empty().checked_insert_interval(255..), empty().checked_extend([255..])), (None, None));
            assert_eq!((Set::<u8>::checked_from_iter([255..]), Set::checked_from_iter([254..])), (None, Some(Set::new(254u8, 254))));
            assert!(!all.clone().remove_interval(255..) && all.clone().remove_interval(254..));
            let all = Set::<i8>::whole();
            assert!(!all.includes(..=-128) && !all.overlaps(..=-128) && all.includes(..=-127) && !all.includes(-128..));
            assert!(all.includes(..-127) && !all.overlaps(..-127) && all.includes(..-128));
            assert_eq!((Set::<i8>::empty().checked_insert_interval(..=-128), all.within(..=-128)), (None, Set::empty()));
            assert!(!all.includes((Included(-128), Included(0))) && !all.includes((Unbounded, Included(-128))));
            assert!(all.includes((Excluded(-128), Unbounded)) && all.includes((Excluded(127), Unbounded)));
            // full types have every value, and no bound is outside
            assert!(Set::<Full<u8>>::whole().includes(Full(255)..) && Set::from(Full(255u8)..).contains(255.into()));
        }

        #[test]
        fn texts_are_padded_and_read() {
            let a = Set::from([1..=2, 5..=5]);
            assert_eq!(format!("{a:>16}|{a:<16}|{a:*^16}"), "  {[1..2][5..5]}|{[1..2][5..5]}  |*{[1..2][5..5]}*");
            assert_eq!(format!("{a:.7}"), "{[1..2]");
            assert_eq!(format!("{:#?} {:03?}", Set::from(1..=2), Set::from(1..=2)), "{\n    1..=2,\n} {001..=002}");
            let read = |text: &str| text.parse::<Set<i16>>().map_err(|fault| (fault.position(), fault.to_string()));
            assert_eq!(read("{}"), Ok(Set::empty()));
            assert_eq!(read("[-5..-2]"), Ok(Set::new(-5, -2)));
            assert_eq!(read("{[5..6][1..2][2..3]}"), Ok(Set::from([1..=3, 5..=6])));
            let syntax = "a set is written as {}, [1..5] or {[1..2][5..5]}";
            let run = "a run is written as [1..5], with two bounds of the type";
            let bounds = "a run must be from a lower to an upper bound, both from -32767 to 32767";
            for (text, at, what) in [
                ("", 0, syntax), ("null", 0, syntax), ("1..5", 0, syntax), ("{", 1, syntax), ("}", 0, syntax), ("{} ", 1, syntax),
                ("{[1..2]", 7, syntax), ("{[1..2]}x", 7, syntax), ("[1..2][3..4]", 6, syntax), ("{1..2}", 1, syntax), (" [1..2]", 0, syntax),
                ("[1..2", 0, run), ("[1.2]", 0, run), ("[..2]", 0, run), ("[1..]", 0, run), ("{[1..2][x..3]}", 7, run), ("[1..99999]", 0, run),
                ("[5..1]", 0, bounds), ("{[1..2][-32768..0]}", 7, bounds),
            ] {
                assert_eq!(read(text), Err((at, format!("at byte {at}: {what}"))), "{text}");
            }
            let marks = Set::from(['.'..='/', ']'..=']', '['..='[', '{'..='{']);
            assert_eq!((marks.to_string(), marks.to_string().parse()), ("{[.../][[..[][]..]][{..{]}".to_owned(), Ok(marks)));
            let far = format!("[{}]", ".".repeat(1 << 20));
            assert!(far.parse::<Set<u8>>().is_err() && far.parse::<Set<char>>().is_err());
        }

        #[test]
        fn iterators_go_by_runs() {
            let begun = Instant::now();
            let all = Set::<u32>::whole();
            assert_eq!((all.iter().count(), all.iter().len(), all.iter().last()), (4_294_967_295, 4_294_967_295, Some(4_294_967_294)));
            assert_eq!((all.iter().nth(4_000_000_000), all.iter().nth_back(4_000_000_000)), (Some(4_000_000_000), Some(294_967_294)));
            assert_eq!((all.iter().min(), all.iter().max(), all.clone().into_iter().count()), (Some(0), Some(4_294_967_294), 4_294_967_295));
            assert_eq!((all.iter().nth(4_294_967_295), all.range(5..).nth(7), all.range(5..).rev().nth(1)), (None, Some(12), Some(4_294_967_293)));
            assert!(all.iter().is_sorted());
            let most = Set::<u64>::whole();
            assert_eq!((most.len(), most.iter().count(), most.iter().size_hint()), (usize::MAX, usize::MAX, most.iter().clone().size_hint()));
            assert!(begun.elapsed() < Duration::from_secs(1), "{:?}", begun.elapsed());
        }

        #[test]
        fn panics_name_the_line_of_the_caller() {
            let here = file!();
            macro_rules! at {
                ($call:expr) => {{
                    let line = line!();
                    assert_eq!(place(|| $call), Some((here.to_owned(), line)), "{}", stringify!($call));
                }};
            }
            let set = || Set::new(10u8, 20);
            at!(Set::from([7u8, 255]));
            at!(Set::from(vec![7u8, 255]));
            at!(Set::from(&[(7u8, 255)][..]));
            at!(Set::from(250..=255u8));
            at!(Set::from(255u8..));
            at!(set().extend([1, 255]));
            at!(set().insert(255));
            at!(set().insert_interval(..=255));
            at!(set().first_fit(0));
            at!(set().best_fit(0));
            at!(set().take_first_fit(0));
            at!(Set::new(3, 255u8));
            at!(Set::<u8>::empty().lower());
        }

        #[test]
        fn few_runs_are_added_to_many() {
            let long: Set<u32> = (0..20_000).map(|i| 10 * i).collect();
            let few = Set::from([5..=5, 100..=109, 250_000..=250_001]);
            let mut by_reference = long.clone();
            by_reference |= &few;
            let whole = long.union(&few);
            assert!(by_reference == whole && long.clone() | few.clone() == whole && &few | &long == whole);
            assert_eq!(whole.len(), 20_000 + 1 + 9 + 2);
        }
    })*};
}

for_both! {
    lists IntervalSet
    pages PagedSet
}

/// The file and the line of the panic of a call.
fn place<R>(call: impl FnOnce() -> R + UnwindSafe) -> Option<(String, u32)> {
    thread_local! {
        static PLACE: std::cell::RefCell<Option<(String, u32)>> = const { std::cell::RefCell::new(None) };
    }
    static HOOKED: std::sync::Once = std::sync::Once::new();
    HOOKED.call_once(|| {
        let told = panic::take_hook();
        panic::set_hook(Box::new(move |info| {
            PLACE.set(info.location().map(|at| (at.file().to_owned(), at.line())));
            told(info);
        }));
    });
    PLACE.set(None);
    assert!(panic::catch_unwind(call).is_err());
    PLACE.take()
}

#[test]
fn bounds_are_of_one_type() {
    fn bounds() -> (Bound<u8>, Bound<u8>) {
        (Included(3), Unbounded)
    }
    let mut a = IntervalSet::from(bounds());
    assert!(a.remove_interval(bounds()) && a.is_empty());
}
