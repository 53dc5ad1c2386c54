//! Replays answers that were not taken from this library, over the proved face: each line of a file is a call, its operands,
//! and the answer that is right.
mod bounds;
mod calculator;
mod intervals;
mod read;
mod sets;
mod unnamed;
mod upper;
mod values;
mod windows;

use bounds::{Bit, Narrow};
use intervallum::proved::width::Width;
use std::fmt::Display;
use std::str::FromStr;

/// What a type of bounds has to be for its lines to be read and its answers to be written.
pub trait Bound: Width + FromStr + Display {}

impl<B: Width + FromStr + Display> Bound for B {}

/// A call at one type, its operands, and the answer.
pub struct Fact<'a> {
    type_name: &'a str,
    pub call: &'a str,
    pub operands: Vec<&'a str>,
    answer: String,
}

impl<'a> Fact<'a> {
    /// Reads `TYPE CALL ; operand ; .. ; answer`. A call of the store answers a reply and the domains that it leaves, a command of
    /// the calculator a reply and a register, and what is cut to the range whether it was.
    fn parse(line: &'a str) -> Fact<'a> {
        let mut parts: Vec<&str> = line.split(" ; ").collect();
        let (type_name, call) = parts[0].split_once(' ').expect("a type and a call");
        let mut answer = parts.pop().expect("an answer").to_string();
        if matches!(call, "narrow" | "propagate" | "post_all" | "add_within" | "sub_within")
            || call.starts_with("calc_")
        {
            answer = format!("{} ; {answer}", parts.pop().expect("a reply"));
        }
        Fact { type_name, call, operands: parts.split_off(1), answer }
    }

    /// What the call answers here; none where the call is not known, an operand cannot be read, or the condition of the call
    /// does not hold.
    fn answer_of<B: Bound>(&self) -> Option<String> {
        match self.call.split_once('.') {
            Some(("s", _)) => sets::answer::<B>(self),
            Some(("l", _)) => sets::answer_of_list::<B>(self),
            Some(("i", _)) => intervals::answer::<B>(self),
            Some(_) => values::answer::<B>(self),
            None if self.call.starts_with("calc_") => calculator::answer::<B>(self),
            None => windows::answer::<B>(self).or_else(|| upper::answer::<B>(self)),
        }
    }

    fn here(&self) -> Option<String> {
        match self.type_name {
            "i8" => self.answer_of::<i8>(),
            "i16" => self.answer_of::<i16>(),
            "i32" => self.answer_of::<i32>(),
            "i64" => self.answer_of::<i64>(),
            "isize" => self.answer_of::<isize>(),
            "u8" => self.answer_of::<u8>(),
            "u16" => self.answer_of::<u16>(),
            "u32" => self.answer_of::<u32>(),
            "u64" => self.answer_of::<u64>(),
            "usize" => self.answer_of::<usize>(),
            "bit" => self.answer_of::<Bit>(),
            "narrow" => self.answer_of::<Narrow>(),
            _ => None,
        }
    }
}

/// Replays the lines of a file, which has so many.
fn replay(file: &str, lines: usize) {
    let path = format!("{}/{file}", env!("CARGO_MANIFEST_DIR"));
    let text = std::fs::read_to_string(&path).unwrap_or_else(|error| panic!("{path}: {error}"));
    let (mut agreeing, mut failing) = (0, Vec::new());
    for line in text.lines().filter(|line| !line.starts_with('#')) {
        let fact = Fact::parse(line);
        match fact.here() {
            Some(here) if here == fact.answer => agreeing += 1,
            here => failing.push(format!("{line}, but here {here:?}")),
        }
    }
    assert!(failing.is_empty(), "{} lines differ:\n{}", failing.len(), failing.join("\n"));
    assert_eq!(agreeing, lines, "lines of {file}");
}

#[test]
fn answers_of_the_original_crate() {
    replay("data/facts.txt", 3620);
}

#[test]
fn answers_worked_out_by_hand() {
    replay("data/worked.txt", 4076);
}

#[test]
fn answers_of_steps_windows_the_calculator_and_the_store_for_other_bounds() {
    replay("data/layers.txt", 48);
}

#[test]
fn answers_of_a_model_for_expressions_and_the_store() {
    replay("data/upper_facts.txt", 2000);
}

#[cfg(json)]
#[test]
fn answers_of_a_model_for_json() {
    replay("../../../crates/ivl_json_replay/data/json_facts.txt", 1500);
}

#[cfg(json)]
#[test]
fn answers_of_json_worked_out_by_hand() {
    replay("../../../crates/ivl_json_replay/data/json_worked.txt", 28);
}
