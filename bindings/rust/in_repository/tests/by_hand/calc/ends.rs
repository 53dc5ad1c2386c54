//! Sums and differences at both ends of small types.
use super::{check_register, check_reply, set};
use crate::compare::{check_all, check_same, made};
use intervallum::proved::Global;
use intervallum::proved::interval_set::IntervalSet;
use intervallum::proved::ivl_store::store::{Constraint, Store};
use intervallum::proved::ivl_within::within::{add_within, sub_within};
use intervallum::proved::width::Width;
use intervallum::rattle::vec::Vec;
use intervallum_programs::proved::ivl_calculator::{Calc, Command, Reply};
use std::fmt::Debug;

/// The least and the greatest of some numbers.
type Ends = (i128, i128);

/// The ends of the numbers between two that are in a range, if there are any.
fn clipped(range: Ends, ends: Ends) -> Option<Ends> {
    if ends.1 < range.0 || ends.0 > range.1 {
        return None;
    }
    Some((ends.0.max(range.0), ends.1.min(range.1)))
}

/// The number in a reply of `Low` or `High`, if there is one.
fn number_in<B: Width>(reply: &Reply<B>) -> Option<i128> {
    match reply {
        Reply::Value(Some(value)) => Some(value.number()),
        _ => None,
    }
}

/// A command that would make the numbers between two cuts them to the range, and register 2 then has what is left.
fn check_ends<B: Width + Debug>(calc: &mut Calc<B>, command: Command<B>, range: Ends, ends: Ends)
where
    B::Output: Debug,
{
    let is_cut = ends.0 < range.0 || ends.1 > range.1;
    check_reply(calc, command, Reply::Cut(is_cut));
    let left = [number_in(&calc.apply(&Command::Low(2))), number_in(&calc.apply(&Command::High(2)))];
    let wanted = match clipped(range, ends) {
        Some((low, high)) => [Some(low), Some(high)],
        None => [None, None],
    };
    check_all(&left, &wanted);
}

/// The ends of the sums of two runs.
fn sums(a: Ends, b: Ends) -> Ends {
    (a.0.saturating_add(b.0), a.1.saturating_add(b.1))
}

/// The ends of the differences of two runs.
fn differences(a: Ends, b: Ends) -> Ends {
    (a.0.saturating_sub(b.1), a.1.saturating_sub(b.0))
}

/// The numbers of two bounds.
fn numbers<B: Width>(run: (B, B)) -> Ends {
    (run.0.number(), run.1.number())
}

/// A list of one pair.
fn one<B: Width>(pair: (B, B)) -> Vec<(B, B)> {
    let mut pairs = Vec::new(Global);
    let is_pushed = pairs.push(pair).is_ok();
    assert!(is_pushed, "memory is left");
    pairs
}

/// The sums and the differences of two runs.
fn check_runs<B: Width + Debug>(calc: &mut Calc<B>, range: Ends, first: (B, B), second: (B, B))
where
    B::Output: Debug,
{
    check_reply(calc, Command::Set(0, one(first)), Reply::Done);
    check_reply(calc, Command::Set(1, one(second)), Reply::Done);
    let (a, b) = (numbers(first), numbers(second));
    check_ends(calc, Command::Plus(2, 0, 1), range, sums(a, b));
    check_ends(calc, Command::Minus(2, 0, 1), range, differences(a, b));
}

/// The sums and the differences of a run and each of several.
fn check_beside<B: Width + Debug>(calc: &mut Calc<B>, range: Ends, first: (B, B), others: &[(B, B)])
where
    B::Output: Debug,
{
    for &second in others {
        check_runs(calc, range, first, second);
    }
}

const UNSIGNED: [(u8, u8); 6] = [(0, 0), (0, 3), (2, 9), (120, 140), (250, 254), (0, 254)];

#[test]
fn unsigned_ends() {
    let mut calc = made(Calc::new(Global, 3));
    for &first in &UNSIGNED {
        check_beside(&mut calc, (0, 254), first, &UNSIGNED);
    }
}

const SIGNED: [(i8, i8); 6] = [(-127, -127), (-127, -100), (-3, 4), (0, 0), (99, 127), (-127, 127)];

#[test]
fn signed_ends() {
    let mut calc = made(Calc::new(Global, 3));
    for &first in &SIGNED {
        check_beside(&mut calc, (-127, 127), first, &SIGNED);
    }
}

#[test]
fn several_runs() {
    let mut calc: Calc<u8> = made(Calc::new(Global, 3));
    set(&mut calc, 0, &[(250, 254)]);
    set(&mut calc, 1, &[(0, 1), (10, 10)]);
    check_reply(&mut calc, Command::Plus(2, 0, 1), Reply::Cut(true));
    check_register(&calc, 2, "[250..254]");
    set(&mut calc, 0, &[(254, 254)]);
    set(&mut calc, 1, &[(1, 1)]);
    check_reply(&mut calc, Command::Plus(2, 0, 1), Reply::Cut(true));
    check_register(&calc, 2, "{}");
    set(&mut calc, 0, &[(0, 5)]);
    set(&mut calc, 1, &[(3, 3)]);
    check_reply(&mut calc, Command::Minus(2, 0, 1), Reply::Cut(true));
    check_register(&calc, 2, "[0..2]");
}

#[test]
fn several_signed_runs() {
    let mut calc: Calc<i8> = made(Calc::new(Global, 3));
    set(&mut calc, 0, &[(-127, -127), (0, 0)]);
    set(&mut calc, 1, &[(-1, 0)]);
    check_reply(&mut calc, Command::Plus(2, 0, 1), Reply::Cut(true));
    check_register(&calc, 2, "{[-127..-127][-1..0]}");
}

/// The third set has the sums of the first two, and the first the differences of the third and the second.
fn check_sums(a: &IntervalSet<u8>, b: &IntervalSet<u8>, sums: &IntervalSet<u8>) {
    check_same(&made(add_within(a, b)).0, sums);
    check_same(&made(sub_within(sums, b)).0, a);
}

/// Of all values, those are left that the second set takes to the third: the first set.
fn check_kept(a: &IntervalSet<u8>, b: &IntervalSet<u8>, sums: &IntervalSet<u8>) {
    let all = made(IntervalSet::new(Global, 0, 254));
    let copies = (made(b.try_clone()), made(sums.try_clone()));
    let domains = made(Vec::from_array(Global, [all, copies.0, copies.1]));
    let mut store = Store::new(Global, domains);
    assert_eq!(store.narrow(&Constraint { x: 0, y: 1, z: 2 }), Ok(true));
    check_same(&store.domains()[0], a);
}

// The sums in a register are those of `within`, and what a store keeps of them is the register that was added to.
#[test]
fn sets_of_registers() {
    let mut calc: Calc<u8> = made(Calc::new(Global, 3));
    set(&mut calc, 0, &[(240, 250)]);
    set(&mut calc, 1, &[(4, 4)]);
    check_reply(&mut calc, Command::Plus(2, 0, 1), Reply::Cut(false));
    let (Some(a), Some(b), Some(sums)) = (calc.get(0), calc.get(1), calc.get(2)) else {
        panic!("all registers are there");
    };
    check_sums(a, b, sums);
    check_kept(a, b, sums);
}
