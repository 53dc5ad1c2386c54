//! Each allocation of each call fails in turn: the call returns an error, or its answer where only
//! shrinking failed, operands are unchanged, and the process goes on.
use intervallum::proved::ivl_paged::PagedSet;
use intervallum::proved::prelude::*;
use intervallum::proved::{AllocError, Global};
use std::alloc::{GlobalAlloc, Layout, System};
use std::cell::Cell;

struct Failing;

// One of each for every thread: the harness allocates on its own thread while a test runs, and must not be refused.
thread_local! {
    static LEFT: Cell<isize> = const { Cell::new(-1) };
    static FAILED: Cell<isize> = const { Cell::new(0) };
}

fn fails() -> bool {
    let left = LEFT.get();
    if left < 0 {
        return false;
    }
    LEFT.set(left - 1);
    if left > 0 {
        return false;
    }
    FAILED.set(FAILED.get() + 1);
    true
}

unsafe impl GlobalAlloc for Failing {
    unsafe fn alloc(&self, layout: Layout) -> *mut u8 {
        if fails() { std::ptr::null_mut() } else { unsafe { System.alloc(layout) } }
    }

    unsafe fn dealloc(&self, at: *mut u8, layout: Layout) {
        unsafe { System.dealloc(at, layout) }
    }

    unsafe fn realloc(&self, at: *mut u8, layout: Layout, size: usize) -> *mut u8 {
        if fails() { std::ptr::null_mut() } else { unsafe { System.realloc(at, layout, size) } }
    }
}

#[global_allocator]
static ALLOCATOR: Failing = Failing;

type Set = IntervalSet<i32>;
type Call = fn(&mut Set, &Set) -> Result<Set, AllocError>;

fn pairs(count: i32, step: i32, first: i32) -> Set {
    let all: Vec<(i32, i32)> = (0..count).map(|i| (first + i * step, first + i * step + 2)).collect();
    all.as_slice().to_interval_set(Global).unwrap()
}

const CALLS: [(&str, Call); 32] = [
    ("try_clone", |a, _| a.try_clone()),
    ("try_clone_from", |a, b| a.try_clone_from(b).and_then(|()| a.try_clone())),
    ("union", |a, b| a.union(b)),
    ("intersection", |a, b| a.intersection(b)),
    ("difference", |a, b| a.difference(b)),
    ("symmetric_difference", |a, b| a.symmetric_difference(b)),
    ("complement", |a, _| a.complement()),
    ("union with a value", |a, _| a.union(&1000)),
    ("intersection with a value", |a, _| a.intersection(&1)),
    ("difference with a value", |a, _| a.difference(&1)),
    ("symmetric_difference with a value", |a, _| a.symmetric_difference(&1)),
    ("union with an interval", |a, _| a.union(&Interval::new(1000, 1010))),
    ("intersection with an interval", |a, _| a.intersection(&Interval::new(0, 20))),
    ("difference with an interval", |a, _| a.difference(&Interval::new(1, 20))),
    ("shrink_left", |a, _| a.shrink_left(7)),
    ("shrink_right", |a, _| a.shrink_right(7)),
    ("strict_shrink_left", |a, _| a.strict_shrink_left(7)),
    ("strict_shrink_right", |a, _| a.strict_shrink_right(7)),
    ("gaps_within", |a, _| a.gaps_within(&Interval::new(-3, 40))),
    ("sum", |a, b| &*a + b),
    ("difference of members", |a, b| &*a - b),
    ("product", |a, b| &*a * b),
    ("sum with a value", |a, _| &*a + 3),
    ("product with a value", |a, _| &*a * -3),
    ("to_interval_set", |_, _| [(5, 9), (1, 2), (20, 30)].to_interval_set(Global)),
    ("to_interval_set of many", |_, _| {
        let lowers: [i32; 200] = std::array::from_fn(|i| 9 * (i as i32 * 77 % 200));
        lowers.map(|lower| (lower, lower + 7)).to_interval_set(Global)
    }),
    ("new", |_, _| Set::new(Global, 1, 2)),
    ("whole", |_, _| Set::whole(Global)),
    ("extend", |a, b| a.extend(b.iter().copied()).and_then(|()| a.try_clone())),
    ("push_run", |a, _| a.push_run(Interval::new(2_000, 2_001)).and_then(|()| a.try_clone())),
    ("insert", |a, _| a.insert(1000).and_then(|_| a.try_clone())),
    ("remove_interval", |a, _| a.remove_interval(Interval::new(1, 1)).and_then(|_| a.try_clone())),
];

#[test]
fn each_allocation_fails_in_turn() {
    let (mut failures, mut errors, mut calls) = (0, 0, 0);
    for (count, other) in [(0, 3), (1, 1), (3, 4), (40, 3), (3, 40), (60, 55), (70, 66)] {
        for (name, call) in CALLS {
            let (old, b) = (pairs(count, 9, 0), pairs(other, 7, 1));
            let want = call(&mut old.try_clone().unwrap(), &b).unwrap();
            for at in 0.. {
                let mut a = old.try_clone().unwrap();
                FAILED.set(0);
                LEFT.set(at);
                let got = call(&mut a, &b);
                LEFT.set(-1);
                calls += 1;
                if FAILED.get() == 0 {
                    assert!(got == Ok(want), "{name}");
                    break;
                }
                failures += 1;
                match got {
                    Ok(set) => assert!(set == want, "{name}"),
                    Err(AllocError) => {
                        errors += 1;
                        // the copy after a change may be what failed
                        assert!(a == old || a == want, "{name}");
                    }
                }
                assert!(b == pairs(other, 7, 1), "{name}");
            }
        }
    }
    println!("{calls} calls, {failures} failed allocations, {errors} errors");
}

type Paged = PagedSet<i32>;
type PagedEdit = fn(&mut Paged) -> Result<(), AllocError>;

// Of pages: a run more, which splits a page of 127; runs split; pages joined and removed.
const PAGED_EDITS: [(&str, PagedEdit); 27] = [
    ("insert", |a| a.insert(4).map(drop)),
    ("insert above all", |a| a.insert(100_000).map(drop)),
    ("insert_interval", |a| a.insert_interval(Interval::new(4, 6))),
    ("insert_interval over pages", |a| a.insert_interval(Interval::new(30, 1500))),
    ("remove", |a| a.remove(1).map(drop)),
    ("remove_interval", |a| a.remove_interval(Interval::new(10, 10))),
    ("remove_interval over pages", |a| a.remove_interval(Interval::new(10, 1500))),
    ("remove_interval of most of a page", |a| a.remove_interval(Interval::new(8, 600))),
    ("take_first_fit", |a| Ok(_ = a.take_first_fit(3))),
    ("try_clone", |a| a.try_clone().map(|copy| *a = copy)),
    ("union", |a| a.union(&others_of(a)?).map(|all| *a = all)),
    ("difference", |a| a.difference(&others_of(a)?).map(|same| *a = same)),
    ("symmetric_difference", |a| a.symmetric_difference(&others_of(a)?).map(|all| *a = all)),
    ("intersection", |a| a.intersection(&a.to_set()?).map(|same| *a = same)),
    ("union_with", |a| a.union_with(&others_of(a)?)),
    ("union_with_list", |a| a.union_with_list(&others_of(a)?.to_set()?)),
    ("union_with few", |a| {
        a.union_with(&few(&[(-9, -9), (-5, -5), (4, 6), (16, 80), (99_990, 100_010), (400_000, 400_001)])?)
    }),
    ("difference_with", |a| a.difference_with(&others_of(a)?)),
    ("difference_with_list", |a| a.difference_with_list(&others_of(a)?.to_set()?)),
    ("difference_with few", |a| a.difference_with(&few(&[(1, 1), (10, 10), (19, 19), (28, 900), (1405, 1405)])?)),
    ("intersect_with", |a| a.intersect_with(&others_of(a)?)),
    ("intersect_with_list", |a| a.intersect_with_list(&a.to_set()?)),
    ("intersect_with few", |a| a.intersect_with(&few(&[(1, 1), (10, 10), (28, 900), (1405, 1405)])?)),
    ("gaps_within", |a| a.gaps_within(&Interval::new(5, 900)).map(drop)),
    ("split_off", |a| a.split_off(900).map(drop)),
    ("retain", |a| a.retain(|lower, _| lower % 4 != 0)),
    ("into_set and from_set", |a| a.try_clone()?.into_set().and_then(Paged::from_set).map(|same| *a = same)),
];

/// The other numbers, but for some from 150,000 on.
fn others_of(a: &Paged) -> Result<Paged, AllocError> {
    let mut others = a.complement()?;
    others.remove_interval(Interval::new(150_000, 250_000))?;
    Ok(others)
}

fn few(runs: &[(i32, i32)]) -> Result<Paged, AllocError> {
    Paged::from_set(runs.to_interval_set(Global)?)
}

fn is_same(a: &Paged, b: &Paged) -> bool {
    a == b && a.interval_count() == b.interval_count() && a.iter().count() == a.interval_count() && a.size() == b.size()
}

/// A set whose runs came one by one, so that a page of 64 is full, where one that was made of a list has room for 128.
fn grown_of(list: &Set) -> Paged {
    let mut paged = Paged::new(Global);
    list.iter().for_each(|run| paged.insert_interval(*run).unwrap());
    paged
}

/// Makes an edit with one allocation after another refused, on the set that `made` makes.
fn refused_in_turn(name: &str, made: &dyn Fn() -> Paged, edit: PagedEdit) -> (u32, u32) {
    let (old, mut want) = (made(), made());
    edit(&mut want).unwrap();
    let (mut failures, mut errors) = (0, 0);
    for at in 0.. {
        let mut a = made();
        FAILED.set(0);
        LEFT.set(at);
        let got = edit(&mut a);
        LEFT.set(-1);
        if FAILED.get() == 0 {
            assert!(got == Ok(()) && is_same(&a, &want), "{name}");
            break;
        }
        failures += 1;
        errors += u32::from(got.is_err());
        assert!(is_same(&a, if got.is_ok() { &want } else { &old }), "{name}");
        // a page that could not be split or joined is one still
        assert!(a.insert(200_000) == Ok(true) && a.remove(200_000) == Ok(true), "{name}");
        assert!(is_same(&a, if got.is_ok() { &want } else { &old }), "{name}");
    }
    (failures, errors)
}

#[test]
fn each_allocation_of_a_paged_set_fails_in_turn() {
    let (mut failures, mut errors) = (0, 0);
    for count in [0, 1, 4, 64, 95, 96, 97, 126, 127, 128, 192, 300, 1000] {
        let list = pairs(count, 9, 0);
        for (name, edit) in PAGED_EDITS {
            let roomy = || Paged::of_set(&list).unwrap();
            let grown = || grown_of(&list);
            let (with_room, without) = (refused_in_turn(name, &roomy, edit), refused_in_turn(name, &grown, edit));
            failures += with_room.0 + without.0;
            errors += with_room.1 + without.1;
            if count == 64 && name == "insert" {
                assert_eq!((with_room, without), ((0, 0), (1, 1)), "only the page that is full has to grow");
            }
        }
        for at in 0.. {
            FAILED.set(0);
            LEFT.set(at);
            let paged = Paged::of_set(&list);
            let listed = paged.as_ref().map(Paged::to_set);
            LEFT.set(-1);
            assert!(list == pairs(count, 9, 0));
            match listed {
                Ok(Ok(all)) => assert!(all == list),
                _ => errors += 1,
            }
            if FAILED.get() == 0 {
                break;
            }
            failures += 1;
        }
    }
    println!("{failures} failed allocations, {errors} errors");
    // most are errors; after the others a page stays one that could have been split or joined
    assert!(errors > 0 && failures > errors);
}
