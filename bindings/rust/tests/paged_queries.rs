//! Random queries of a paged set beside a `BTreeSet`: of intervals, and of a second set in pages and in one list.
use intervallum::proved::Global;
use intervallum::proved::ivl_paged::PagedSet;
use intervallum::proved::prelude::*;
use std::collections::BTreeSet;

type Model = BTreeSet<i16>;

// a tenth where nothing is optimized
const QUERIES: u32 = if cfg!(debug_assertions) { 10_000 } else { 100_000 };

/// A generator of random numbers: xorshift64*.
struct Random(u64);

impl Random {
    fn below(&mut self, end: u64) -> u64 {
        self.0 ^= self.0 >> 12;
        self.0 ^= self.0 << 25;
        self.0 ^= self.0 >> 27;
        (self.0.wrapping_mul(0x2545_f491_4f6c_dd1d) >> 33) % end
    }

    /// A value near the end of the range, so that its end is among them.
    fn value(&mut self) -> i16 {
        (i16::MAX - 8000) + self.below(8001) as i16
    }

    fn interval(&mut self) -> Interval<i16> {
        let lower = self.value();
        let count = [1, 4, 40, 400, 2000][self.below(5) as usize];
        let upper = lower.saturating_add(self.below(count) as i16 - 1);
        Interval::new(lower, upper)
    }
}

/// One set in three forms.
struct Forms {
    paged: PagedSet<i16>,
    list: IntervalSet<i16>,
    model: Model,
}

impl Forms {
    fn of(paged: PagedSet<i16>) -> Self {
        let list = paged.to_set().unwrap();
        let model = list.iter().flat_map(|run| run.lower()..=run.upper()).collect();
        Forms { paged, list, model }
    }

    /// Some set: empty, few runs, many runs, or few gaps.
    fn random(random: &mut Random) -> Self {
        let mut set = PagedSet::new(Global);
        let edits = [0, 3, 60, 5000][random.below(4) as usize];
        if random.below(4) == 0 {
            set.insert_interval(Interval::new(i16::MAX - 8000, i16::MAX)).unwrap();
        }
        for _ in 0..edits {
            let lower = random.value().min(i16::MAX - 2);
            let some = Interval::new(lower, lower + random.below(3) as i16);
            match random.below(3) {
                0 => set.remove_interval(some).unwrap(),
                _ => set.insert_interval(some).unwrap(),
            }
        }
        Forms::of(set)
    }

    /// A part of this set, or all but a little.
    fn part(&self, random: &mut Random) -> Self {
        let mut set = self.paged.try_clone().unwrap();
        for _ in 0..random.below(4) {
            set.remove_interval(random.interval()).unwrap();
        }
        if random.below(4) == 0 {
            set.insert(random.value()).unwrap();
        }
        Forms::of(set)
    }
}

/// Compares the answers about one interval.
fn ask_of(interval: &Interval<i16>, set: &Forms) {
    let Forms { paged, model, .. } = set;
    let count = match interval.is_empty() {
        true => 0,
        false => model.range(interval.lower()..=interval.upper()).count(),
    };
    assert_eq!(paged.includes(interval), count == usize::from(interval.size()));
    assert_eq!((paged.overlap(interval), paged.is_disjoint(interval)), (count > 0, count == 0));
    assert_eq!(usize::from(paged.size_within(interval)), count);
}

/// Whether a run of the list meets an interval.
fn meets(run: &Interval<i16>, interval: &Interval<i16>) -> bool {
    !interval.is_empty() && run.lower() <= interval.upper() && interval.lower() <= run.upper()
}

/// Compares what goes over the runs of an interval, from both ends.
fn ask_of_runs(random: &mut Random, interval: &Interval<i16>, set: &Forms) {
    let Forms { paged, list, model } = set;
    let met: Vec<_> = list.iter().filter(|run| meets(run, interval)).copied().collect();
    assert!(paged.runs_within(interval).eq(met.iter().copied()));
    assert!(paged.runs_within(interval).rev().eq(met.iter().rev().copied()));
    let (mut left, mut rest) = (paged.runs_within(interval), met.iter());
    while rest.len() > 0 {
        if random.below(2) == 0 {
            assert_eq!(left.next().as_ref(), rest.next());
        } else {
            assert_eq!(left.next_back().as_ref(), rest.next_back());
        }
    }
    assert!(left.next().is_none() && left.next_back().is_none());
    let inside = |x: &i16| interval.contains(x);
    assert!(paged.members_within(interval).eq(model.iter().copied().filter(inside)));
    assert!(paged.members_within(interval).rev().eq(model.iter().rev().copied().filter(inside)));
    let gaps = paged.gaps_within(interval).unwrap();
    let free = (interval.lower_bound()..=interval.upper_bound()).filter(|x| !model.contains(x));
    assert!(gaps.iter().flat_map(|run| run.lower()..=run.upper()).eq(free));
}

/// Compares both parts of a set that is divided at a value.
fn ask_of_parts(value: i16, set: &Forms) {
    let (mut below, mut below_model) = (set.paged.try_clone().unwrap(), set.model.clone());
    let above = Forms::of(below.split_off(value).unwrap());
    assert_eq!(above.model, below_model.split_off(&value));
    assert_eq!(Forms::of(below).model, below_model);
    let given = PagedSet::from_set(above.list).unwrap();
    assert!(given == above.paged && given.into_set().unwrap() == above.paged.into_set().unwrap());
}

/// Compares what `retain` keeps, and the runs that it asks for.
fn ask_of_kept(set: &Forms) {
    let (mut kept, mut asked) = (set.paged.try_clone().unwrap(), Vec::new());
    kept.retain(|lower, upper| {
        asked.push(Interval::new(lower, upper));
        lower % 3 != 0
    })
    .unwrap();
    assert!(asked.iter().eq(set.list.iter()));
    assert!(kept.iter().eq(asked.into_iter().filter(|run| run.lower() % 3 != 0)));
    assert_eq!(kept.interval_count(), kept.iter().count());
}

/// Compares the shortest room for some numbers of members, and the longest run.
fn ask_of_room(set: &Forms) {
    for count in (1..12u16).chain([40, 400, 8001]) {
        let long_enough = set.list.iter().filter(|run| run.size() >= count);
        let shortest = long_enough.min_by_key(|run| run.size());
        let fit = shortest.map(|run| Interval::new(run.lower(), run.lower() + (count - 1) as i16));
        assert_eq!(set.paged.best_fit(count), fit, "{count}");
    }
    // `max_by_key` takes the last of several
    let longest = set.list.iter().rev().max_by_key(|run| run.size());
    assert_eq!(set.paged.longest_run(), longest.copied());
}

/// Compares the answers about two sets.
fn ask_of_both(a: &Forms, b: &Forms) {
    let have_common = !a.model.is_disjoint(&b.model);
    assert_eq!((a.paged.overlap(&b.paged), a.paged.overlap(&b.list)), (have_common, have_common));
    assert_eq!((a.paged.is_disjoint(&b.paged), a.paged.is_disjoint(&b.list)), (!have_common, !have_common));
    let is_subset = a.model.is_subset(&b.model);
    assert_eq!((a.paged.is_subset(&b.paged), a.paged.is_subset_of_list(&b.list)), (is_subset, is_subset));
    let is_superset = a.model.is_superset(&b.model);
    assert_eq!((a.paged.is_superset(&b.paged), a.paged.is_superset_of_list(&b.list)), (is_superset, is_superset));
}

#[test]
fn random_queries_agree_with_a_tree() {
    let mut random = Random(5);
    let (mut set, mut most) = (Forms::random(&mut random), 0);
    for query in 0..QUERIES {
        if query % 200 == 0 {
            set = Forms::random(&mut random);
            most = most.max(set.paged.interval_count());
            match set.model.first() {
                Some(least) => assert_eq!((set.paged.lower(), Some(&set.paged.upper())), (*least, set.model.last())),
                None => assert!(set.paged.is_empty()),
            }
            let (other, part) = (Forms::random(&mut random), set.part(&mut random));
            ask_of_both(&set, &other);
            ask_of_both(&set, &part);
            ask_of_both(&part, &set);
            ask_of_room(&set);
            ask_of_kept(&set);
            for value in [random.value(), i16::MIN, i16::MIN + 1, i16::MAX] {
                ask_of_parts(value, &set);
            }
        }
        let interval = random.interval();
        ask_of(&interval, &set);
        if query % 10 == 0 {
            ask_of_runs(&mut random, &interval, &set);
        }
    }
    assert!(most > 500, "enough for several pages: {most}");
}

#[test]
fn the_whole_range_is_one_run() {
    let whole = PagedSet::<i16>::whole(Global).unwrap();
    assert_eq!((whole.interval_count(), whole.lower(), whole.upper()), (1, i16::MIN + 1, i16::MAX));
}
