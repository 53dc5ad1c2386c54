//! Each rule of `conditions.txt`, which puts a condition into debug builds, has its message in a test.
use std::collections::BTreeMap;
use std::fs;

#[test]
fn each_condition_has_a_test_of_its_message() {
    let file = |name: &str| fs::read_to_string(format!("{}/../{name}", env!("CARGO_MANIFEST_DIR"))).unwrap();
    let (rules, tests) = (file("conditions.txt"), file("tests/conditions.rs"));
    let mut messages: BTreeMap<String, usize> = BTreeMap::new();
    for rule in rules.lines().filter(|line| !line.starts_with('#') && !line.is_empty()) {
        let (_, rest) = rule.split_once(' ').unwrap();
        let (function, condition) = rest.split_once(' ').unwrap();
        if condition.starts_with("by ") {
            continue;
        }
        *messages.entry(format!("the condition of `{function}` is broken: {condition}")).or_default() += 1;
    }
    assert!(messages.len() > 30);
    for (message, rules) in messages {
        let by_reference = message.replace("{rhs}", "rhs");
        let by_value = message.replace("{rhs}", "&rhs");
        let forms = if by_reference == by_value { vec![by_value] } else { vec![by_reference, by_value] };
        let found: usize = forms.iter().map(|text| tests.matches(&format!("\"{text}\"")).count()).sum();
        assert!(found >= rules, "{rules} rules have this message, and {found} tests: {message}");
    }
}

/// The file and the line of the panic of a call.
#[cfg(debug_assertions)]
fn place<R>(call: impl FnOnce() -> R + std::panic::UnwindSafe) -> Option<(String, u32)> {
    use std::{cell::RefCell, panic};

    thread_local! {
        static PLACE: RefCell<Option<(String, u32)>> = const { RefCell::new(None) };
    }
    panic::set_hook(Box::new(|info| PLACE.set(info.location().map(|at| (at.file().to_owned(), at.line())))));
    PLACE.set(None);
    let is_told = panic::catch_unwind(call).is_err();
    _ = panic::take_hook();
    PLACE.take().filter(|_| is_told)
}

#[test]
#[cfg(debug_assertions)]
fn a_broken_condition_of_the_proved_face_is_told_at_the_callers_line() {
    use intervallum::proved::prelude::*;
    use intervallum::proved::{Global, IntervalSet, width::Width};

    macro_rules! are_told_here {
        ($($call:expr;)*) => {
            // each call stands in a line of its own
            let mut line = line!();
            $(
                line += 1;
                assert_eq!(place(|| $call), Some((file!().to_owned(), line)), "{}", stringify!($call));
            )*
        };
    }
    let set = || IntervalSet::<u8>::new(Global, 10, 20).unwrap();
    are_told_here! {
        Interval::new(0u8, 255);
        Interval::singleton(255u8);
        (0u8, 255u8).to_interval();
        Interval::new(1u8, 2).hull(&255);
        set() + 235;
        &set() - &set();
        set().insert(255);
        set().union(&255);
        set().symmetric_difference(&255);
        set().first_fit(0);
        IntervalSet::<u8>::empty(Global).lower();
        IntervalSet::<u8>::new(Global, 8, 3);
        IntervalSet::<u8>::singleton(Global, 255);
        IntervalSet::<u8>::of_members(Global, &[255]);
        (0u8, 255u8).to_interval_set(Global);
        Width::add_in_range(254u8, 1);
    }
}
