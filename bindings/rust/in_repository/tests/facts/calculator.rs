//! The commands of the calculator.
use crate::read::{pairs, runs_text};
use crate::{Bound, Fact};
use intervallum::proved::Global;
use intervallum::proved::width::SizeNumber;
use intervallum_programs::proved::ivl_calculator::{Calc, Command, Reply};

/// What the command of a fact replies over registers 0 and 1, which get the pairs of its operands, and the runs of register 2, to
/// which it writes.
pub fn answer<B: Bound>(fact: &Fact<'_>) -> Option<String> {
    let mut calc: Calc<B> = Calc::new(Global, 3).ok()?;
    for (register, operand) in fact.operands.iter().enumerate() {
        calc.apply(&Command::Set(register, pairs(operand)?.into()));
    }
    let reply = calc.apply(&command(fact.call)?);
    Some(format!("{} ; {}", reply_text(&reply)?, runs_text(calc.get(2)?)))
}

/// The command of this name.
fn command<B: Bound>(name: &str) -> Option<Command<B>> {
    Some(match name {
        "calc_union" => Command::Union(2, 0, 1),
        "calc_plus" => Command::Plus(2, 0, 1),
        "calc_minus" => Command::Minus(2, 0, 1),
        "calc_times" => Command::Times(2, 0, 1),
        "calc_size" => Command::Size(0),
        _ => return None,
    })
}

/// `ok`, `cut`, a size, or the text of a refusal; none for another reply.
fn reply_text<B: Bound>(reply: &Reply<B>) -> Option<String> {
    Some(match reply {
        Reply::Done | Reply::Cut(false) => String::from("ok"),
        Reply::Cut(true) => String::from("cut"),
        Reply::Size(size) => size.number().to_string(),
        Reply::Refused(refusal) => refusal.to_string(),
        _ => return None,
    })
}
