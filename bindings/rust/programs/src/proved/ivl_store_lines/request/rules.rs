// Written by bindings/rust/extract from crates/ivl_store_lines/src/request/rules.rt.
//! Lines that state a rule between variables.

#[allow(unused_imports)]
use crate::rattle::prelude::*;
use crate::proved::ivl_store_lines::fault::Fault;
use crate::proved::ivl_store_lines::relation::Relation;
use crate::proved::ivl_store_lines::request::Request;
use crate::proved::ivl_lines::{next_word, number_from, three_words, two_words};

/// Reads the rule of a line, given its first word and those after it: `x <= y`, `x + 3 <= y` or `x <= y + 3`, by `=`
/// and `!=` too, or `x + y = z`. Returns `None` if the line has no such form. Linear in the line; does not allocate.
///
/// # Errors
///
/// `Number` if what is added is not a number, unless it is a name before `=`. `Range` if it is added after the sign and
/// is the least number of `i64`, whose opposite is none of `i64`.
pub fn rule_from<'a>(x: &'a str, words: &'a str) -> Option<Result<Request<'a>, Fault<'a>>> {
    if let Some((sign, y)) = two_words(words) {
        return Some(Ok(Request::Relate(relation_from(sign)?, x, y, 0)));
    }
    let (second, rest) = next_word(words)?;
    let (third, fourth, fifth) = three_words(rest)?;
    if second == "+" {
        Some(from_left(x, third, relation_from(fourth)?, fifth))
    } else if fourth == "+" {
        Some(from_right(x, relation_from(second)?, third, fifth))
    } else {
        None
    }
}

/// Returns true exactly when the words after the first are a sign or `+` and any others. Linear in the first of them.
pub fn begins_rule(words: &str) -> bool {
    match next_word(words) {
        Some((second, _)) => second == "+" || relation_from(second).is_some(),
        None => false,
    }
}

/// The relation of a sign.
fn relation_from(sign: &str) -> Option<Relation> {
    match sign {
        "=" => Some(Relation::Shifted),
        "<=" => Some(Relation::AtMost),
        "!=" => Some(Relation::Differs),
        _ => None,
    }
}

/// The rule that relates `x + word` to `y`.
fn from_left<'a>(
    x: &'a str,
    word: &'a str,
    relation: Relation,
    y: &'a str,
) -> Result<Request<'a>, Fault<'a>> {
    let Some(by) = number_from(word) else {
        return match relation {
            Relation::Shifted => Ok(Request::Sum(x, word, y)),
            Relation::AtMost => Err(Fault::Number(word)),
            Relation::Differs => Err(Fault::Number(word)),
        };
    };
    Ok(Request::Relate(relation, x, y, by))
}

/// The rule that relates `x` to `y + word`.
fn from_right<'a>(
    x: &'a str,
    relation: Relation,
    y: &'a str,
    word: &'a str,
) -> Result<Request<'a>, Fault<'a>> {
    let Some(number) = number_from(word) else {
        return Err(Fault::Number(word));
    };
    match opposite_of(number) {
        Some(by) => Ok(Request::Relate(relation, x, y, by)),
        None => Err(Fault::Range),
    }
}

/// The number with its sign turned, or `None` if that is no number of `i64`.
fn opposite_of(number: i64) -> Option<i64> {
    number.checked_neg()
}
