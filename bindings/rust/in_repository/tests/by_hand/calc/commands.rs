//! Each command where nothing is refused.
use super::{check_done, check_register, check_reply, set};
use crate::compare::{check, check_all, made};
use intervallum::proved::Global;
use intervallum::proved::interval::Interval;
use intervallum::proved::ops::Range;
use intervallum::rattle::vec::Vec;
use intervallum_programs::proved::ivl_calculator::{Calc, Command, Reply};

#[test]
fn a_register_may_be_its_own_operand() {
    let mut calc: Calc<i64> = made(Calc::new(Global, 4));
    set(&mut calc, 0, &[(1, 3), (8, 8), (10, 11)]);
    set(&mut calc, 1, &[(2, 5), (7, 8), (12, 15)]);
    check_reply(&mut calc, Command::Sym(2, 0, 1), Reply::Done);
    check_reply(&mut calc, Command::Count(2), Reply::Count(4));
    check_reply(&mut calc, Command::High(2), Reply::Value(Some(15)));
    check_reply(&mut calc, Command::Low(3), Reply::Value(None));
    check_reply(&mut calc, Command::Sub(2, 0), Reply::Flag(false));
    check_reply(&mut calc, Command::Meets(2, 0), Reply::Flag(true));
    check_done(&mut calc, Command::Diff(0, 0, 0), 0, "{}");
    check_done(&mut calc, Command::StrictLeft(1, 1, 7), 1, "{[8..8][12..15]}");
    check_reply(&mut calc, Command::MinusValue(1, 1, 8), Reply::Done);
    check_done(&mut calc, Command::Times(1, 1, 1), 1, "{[0..0][16..49]}");
}

#[test]
fn sets_are_made() {
    let mut calc: Calc<u8> = made(Calc::new(Global, 3));
    // Two pairs overlap, and the crossed one adds nothing.
    set(&mut calc, 0, &[(3, 8), (2, 5), (9, 4)]);
    check_register(&calc, 0, "[2..8]");
    set(&mut calc, 1, &[(9, 9), (4, 5), (250, 254)]);
    check_done(&mut calc, Command::Union(2, 0, 1), 2, "{[2..9][250..254]}");
    check_done(&mut calc, Command::Inter(2, 0, 1), 2, "[4..5]");
    check_done(&mut calc, Command::Diff(2, 0, 1), 2, "{[2..3][6..8]}");
    check_done(&mut calc, Command::Comp(2, 1), 2, "{[0..3][6..8][10..249]}");
    // No pair at all is the empty set.
    set(&mut calc, 2, &[]);
    check_register(&calc, 2, "{}");
}

#[test]
fn members_of_a_union_are_counted() {
    let mut calc: Calc<i64> = made(Calc::new(Global, 2));
    set(&mut calc, 0, &[(1, 2), (3, 5)]);
    check_reply(&mut calc, Command::Union(1, 0, 1), Reply::Done);
    check_reply(&mut calc, Command::Size(1), Reply::Size(5));
}

#[test]
fn sets_are_cut_and_moved() {
    let mut calc: Calc<i64> = made(Calc::new(Global, 2));
    set(&mut calc, 0, &[(-4, 5), (8, 8)]);
    check_done(&mut calc, Command::Left(1, 0, 5), 1, "{[5..5][8..8]}");
    check_done(&mut calc, Command::Right(1, 0, -4), 1, "[-4..-4]");
    check_done(&mut calc, Command::StrictRight(1, 0, 8), 1, "[-4..5]");
    check_done(&mut calc, Command::PlusValue(1, 0, 10), 1, "{[6..15][18..18]}");
    check_done(&mut calc, Command::TimesValue(1, 0, -2), 1, "{[-16..-16][-10..8]}");
    // A value outside the range may be added where the sums are in the range.
    set(&mut calc, 0, &[(1, 1)]);
    check_done(&mut calc, Command::PlusValue(0, 0, i64::MIN), 0, "[-9223372036854775807..-9223372036854775807]");
}

#[test]
fn sums_and_differences_are_clipped() {
    let mut calc: Calc<i64> = made(Calc::new(Global, 4));
    set(&mut calc, 2, &[(1, 2)]);
    check_reply(&mut calc, Command::Plus(1, 2, 2), Reply::Cut(false));
    check_register(&calc, 1, "[2..4]");
    set(&mut calc, 3, &[(-i64::MAX, 0)]);
    check_reply(&mut calc, Command::Minus(1, 3, 2), Reply::Cut(true));
    check_register(&calc, 1, "[-9223372036854775807..-1]");
}

#[test]
fn questions_are_answered() {
    let alloc = Global;
    let mut calc: Calc<i64> = made(Calc::new(alloc, 2));
    let pairs = made(Vec::from_slice(alloc, &[(5, 6), (1, 2)]));
    let commands = [
        Command::Set(0, pairs),
        Command::Has(0, 3),
        Command::Has(0, 6),
        Command::Size(0),
        Command::Count(0),
        Command::Low(0),
        Command::High(1),
        Command::Same(0, 1),
        Command::Same(0, 0),
        Command::Sub(1, 0),
        Command::Meets(1, 0),
        Command::Show(0),
    ];
    let replies = made(calc.run(&commands));
    let runs = [Interval::new(1, 2), Interval::new(5, 6)];
    let wanted = [
        Reply::Done,
        Reply::Flag(false),
        Reply::Flag(true),
        Reply::Size(4),
        Reply::Count(2),
        Reply::Value(Some(1)),
        Reply::Value(None),
        Reply::Flag(false),
        Reply::Flag(true),
        Reply::Flag(true),
        Reply::Flag(false),
        Reply::Runs(made(Vec::from_slice(alloc, &runs))),
    ];
    check_all(&replies, &wanted);
}

#[test]
fn registers_are_counted() {
    let calc: Calc<i64> = made(Calc::new(Global, 2));
    check(calc.registers(), 2);
    check(calc.get(2).is_none(), true);
}
