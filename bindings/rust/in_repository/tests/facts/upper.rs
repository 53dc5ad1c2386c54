//! The calls of expressions and the store, and of JSON.
use crate::read::{parts, runs_text, set, truth};
use crate::{Bound, Fact};
use intervallum::proved::Global;
use intervallum::proved::ivl_expr::{EvalFault, Expr, eval};
use intervallum::proved::ivl_store::store::{Constraint, Post, Store, StoreFault};
use intervallum::rattle::boxed::Box;
use intervallum::rattle::vec::Vec as List;

/// What the call of a fact answers here.
pub fn answer<B: Bound>(fact: &Fact<'_>) -> Option<String> {
    match fact.call {
        "eval" => evaluated::<B>(fact.operands[0], fact.operands[1]),
        "narrow" | "propagate" | "post_all" => of_store::<B>(fact),
        #[cfg(json)]
        _ => of_json::<B>(fact),
        #[cfg(not(json))]
        _ => None,
    }
}

fn evaluated<B: Bound>(words: &str, sets: &str) -> Option<String> {
    let sets = parts(sets, set::<B>)?;
    Some(match eval(Global, &expression(words)?, &sets) {
        Ok(set) => runs_text(&set),
        Err(EvalFault::Missing(i)) => format!("missing {i}"),
        Err(EvalFault::Range) => String::from("range"),
        Err(EvalFault::Memory) => return None,
    })
}

/// An expression in prefix order, read from its last word on.
fn expression<B: Bound>(text: &str) -> Option<Expr<B>> {
    let mut read = Vec::new();
    for word in text.rsplit(' ') {
        let node = match word.split_at(1) {
            ("v", index) => Expr::Var(index.parse().ok()?),
            ("c", value) => Expr::Const(value.parse().ok()?),
            (operator, _) => {
                let left = Box::new(Global, read.pop()?).ok()?;
                let right = Box::new(Global, read.pop()?).ok()?;
                match operator {
                    "+" => Expr::Add(left, right),
                    "-" => Expr::Sub(left, right),
                    _ => Expr::Mul(left, right),
                }
            }
        };
        read.push(node);
    }
    read.pop()
}

fn of_store<B: Bound>(fact: &Fact<'_>) -> Option<String> {
    let [domains, words, rounds @ ..] = fact.operands.as_slice() else {
        return None;
    };
    let mut store = Store::new(Global, List::from(parts(domains, set::<B>)?));
    let one = |answer: bool| vec![answer];
    let replies = match fact.call {
        "narrow" => store.narrow(&constraint(words)?).map(one),
        "propagate" => store.propagate(&parts(words, constraint)?, rounds[0].parse().ok()?).map(one),
        _ => store.post_all(&parts(words, post)?).map(|replies| replies.into_inner()),
    };
    let reply = match replies {
        Ok(replies) if replies.is_empty() => String::from("none"),
        Ok(replies) => replies.into_iter().map(truth).collect::<Vec<_>>().join(" "),
        Err(StoreFault::Variable(i)) => format!("variable {i}"),
        Err(StoreFault::Memory) => return None,
    };
    let domains: Vec<String> = store.domains().iter().map(runs_text).collect();
    Some(format!("{reply} ; {}", domains.join(" | ")))
}

/// The constraint `sum x y z`.
fn constraint(text: &str) -> Option<Constraint> {
    let words: Option<Vec<usize>> = text.strip_prefix("sum ")?.split(' ').map(|word| word.parse().ok()).collect();
    let [x, y, z] = words?[..] else {
        return None;
    };
    Some(Constraint { x, y, z })
}

/// The post `cut i l u l u ..` or `sum x y z`.
fn post<B: Bound>(text: &str) -> Option<Post<B>> {
    let Some(cut) = text.strip_prefix("cut ") else {
        return constraint(text).map(Post::Require);
    };
    let (variable, runs) = cut.split_once(' ')?;
    Some(Post::Restrict(variable.parse().ok()?, set(runs)?))
}

#[cfg(json)]
fn of_json<B: Bound>(fact: &Fact<'_>) -> Option<String> {
    use crate::read::{interval, interval_text};
    use intervallum::proved::examples::Value;
    use intervallum::proved::ivl_json::JsonForm;
    use intervallum::proved::{Interval, IntervalSet};

    let value = || fact.operands[0].parse::<Value>().ok();
    Some(match fact.call {
        "json_interval" => match Interval::<B>::from_value(Global, &value()?) {
            Ok(run) => interval_text(&run),
            Err(fault) => fault.to_string(),
        },
        "json_set" => match IntervalSet::<B>::from_value(Global, &value()?) {
            Ok(set) => runs_text(&set),
            Err(fault) => fault.to_string(),
        },
        "json_write_interval" => interval::<B>(fact.operands[0])?.to_value(Global).ok()?.to_string(),
        "json_write_set" => set::<B>(fact.operands[0])?.to_value(Global).ok()?.to_string(),
        _ => return None,
    })
}
