//! What is refused, which reason is told, and that the registers stay.
use super::{check_register, set};
use crate::compare::{check, check_printed, made};
use intervallum::proved::Global;
use intervallum::rattle::vec::Vec;
use intervallum_programs::proved::ivl_calculator::{Calc, Command, Refusal, Reply};

/// The commands are run together, and each is refused for the reason at its place.
fn check_refused(calc: &mut Calc<i64>, commands: &[Command<i64>], wanted: &[Refusal]) {
    let replies = made(calc.run(commands));
    assert_eq!(replies.len(), wanted.len());
    for (reply, why) in replies.iter().zip(wanted) {
        assert!(*reply == Reply::Refused(*why));
    }
}

#[test]
fn refused_commands_change_nothing() {
    let mut calc: Calc<i64> = made(Calc::new(Global, 1));
    set(&mut calc, 0, &[(1, i64::MAX)]);
    // The least value of the type is outside the range.
    let outside = made(Vec::from_slice(Global, &[(2, 3), (i64::MIN, 0)]));
    let also_outside = made(Vec::from_slice(Global, &[(i64::MIN, 0)]));
    let commands = [
        Command::Set(0, outside),
        Command::Union(0, 0, 1),
        Command::Minus(0, 1, 0),
        Command::Times(0, 0, 0),
        Command::PlusValue(0, 0, 1),
        Command::MinusValue(0, 0, -1),
        Command::TimesValue(0, 0, i64::MIN),
        // The register is asked for before the range, and before whether results fit.
        Command::Set(1, also_outside),
        Command::PlusValue(1, 0, 1),
    ];
    let wanted = [
        Refusal::Range,
        Refusal::Register,
        Refusal::Register,
        Refusal::Fit,
        Refusal::Fit,
        Refusal::Fit,
        Refusal::Fit,
        Refusal::Register,
        Refusal::Register,
    ];
    check_refused(&mut calc, &commands, &wanted);
    check_register(&calc, 0, "[1..9223372036854775807]");
}

#[test]
fn no_register_is_no_answer() {
    let alloc = Global;
    let mut calc: Calc<i64> = made(Calc::new(alloc, 0));
    check(calc.registers(), 0);
    check(calc.get(0).is_none(), true);
    let commands = [
        Command::Set(0, Vec::new(alloc)),
        Command::Union(0, 0, 0),
        Command::Inter(0, 0, 0),
        Command::Diff(0, 0, 0),
        Command::Sym(0, 0, 0),
        Command::Comp(0, 0),
        Command::Left(0, 0, 1),
        Command::Right(0, 0, 1),
        Command::StrictLeft(0, 0, 1),
        Command::StrictRight(0, 0, 1),
        Command::Plus(0, 0, 0),
        Command::Minus(0, 0, 0),
        Command::Times(0, 0, 0),
        Command::PlusValue(0, 0, 1),
        Command::MinusValue(0, 0, 1),
        Command::TimesValue(0, 0, 1),
        Command::Has(0, 1),
        Command::Size(0),
        Command::Count(0),
        Command::Low(0),
        Command::High(0),
        Command::Same(0, 0),
        Command::Sub(0, 0),
        Command::Meets(0, 0),
        Command::Show(0),
    ];
    check_refused(&mut calc, &commands, &[Refusal::Register; 25]);
}

const TEXTS: [(Refusal, &str); 4] = [
    (Refusal::Register, "refused 1 register"),
    (Refusal::Range, "refused 2 range"),
    (Refusal::Fit, "refused 3 fit"),
    (Refusal::Memory, "refused 4 memory"),
];

#[test]
fn texts_of_refusals() {
    for &(refusal, text) in &TEXTS {
        check_printed(&refusal, text);
    }
}
