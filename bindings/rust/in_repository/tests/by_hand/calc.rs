//! The commands by example, with values that were worked out by hand.

mod commands;
mod ends;
mod refusals;

use crate::compare::{check_printed, made};
use intervallum::proved::Global;
use intervallum::proved::width::Width;
use intervallum::rattle::vec::Vec;
use intervallum_programs::proved::ivl_calculator::{Calc, Command, Reply};
use std::fmt::{Debug, Display};

/// The set in a register is printed as a text.
fn check_register<B: Width + Display>(calc: &Calc<B>, register: usize, text: &str) {
    match calc.get(register) {
        Some(set) => check_printed(set, text),
        None => panic!("there is no register {register}"),
    }
}

/// A command is answered by a reply.
fn check_reply<B: Width + Debug>(calc: &mut Calc<B>, command: Command<B>, reply: Reply<B>)
where
    B::Output: Debug,
{
    assert_eq!(calc.apply(&command), reply);
}

/// Pairs are put into a register.
fn set<B: Width + Debug>(calc: &mut Calc<B>, register: usize, pairs: &[(B, B)])
where
    B::Output: Debug,
{
    let pairs = made(Vec::from_slice(Global, pairs));
    check_reply(calc, Command::Set(register, pairs), Reply::Done);
}

/// A command is done, and the set in its register is then printed as a text.
fn check_done<B: Width + Debug + Display>(calc: &mut Calc<B>, command: Command<B>, register: usize, text: &str)
where
    B::Output: Debug,
{
    check_reply(calc, command, Reply::Done);
    check_register(calc, register, text);
}
