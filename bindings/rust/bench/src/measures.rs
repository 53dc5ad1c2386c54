//! The calls that are measured, by their names.

use crate::fault::Result;
use crate::inputs::Inputs;
use crate::json::{self, Value};
use crate::{calls, fresh};
use intervallum::proved::AllocError;
use intervallum::proved::interval_set::IntervalSet;
use intervallum::proved::ops::Cardinality;
use std::fmt;

/// A call on sets.
#[derive(Clone, Copy)]
pub enum Measure {
    BuildExtend,
    BuildPairs,
    ExtendOne,
    Clone,
    Union,
    Intersection,
    Difference,
    Symmetric,
    Complement,
    ShrinkLeft,
    PlusValue,
    TimesValue,
    Contains,
    EqualYes,
    EqualNo,
    Subset,
    PlusDense,
    MinusDense,
    TimesDense,
    PlusSparse,
    TimesSparse,
    JsonRead,
    JsonWrite,
    JsonText,
    EvalSum,
    EvalChain,
    UnionFew,
    IntersectionFew,
    DifferenceFew,
    SubsetFew,
    IntersectionValue,
    NextFrom,
    FirstFit,
    InsertRandom,
    RemoveRandom,
    PopFirst,
    UnionFresh,
    IntersectionFresh,
    DifferenceFresh,
    SymmetricFresh,
}

/// What a call answers. The answer itself is dropped: to move a set or a value about takes longer than
/// the quickest calls.
#[derive(Clone, Copy, PartialEq, Eq)]
pub enum Answer {
    /// The number of runs of a set, and its size.
    Set(usize, u64),
    /// The one number, or how long an array or a text is.
    Number(u64),
    DoesNotFit,
}

impl Answer {
    pub fn of_set(set: &IntervalSet<i64>) -> Answer {
        Answer::Set(set.interval_count(), set.size())
    }
}

impl fmt::Display for Answer {
    fn fmt(&self, f: &mut fmt::Formatter<'_>) -> fmt::Result {
        match self {
            Answer::Set(runs, size) => write!(f, "{runs} {size}"),
            Answer::Number(number) => write!(f, "{number}"),
            Answer::DoesNotFit => write!(f, "does not fit"),
        }
    }
}

/// What is made by a call whose time is that of making alone.
#[allow(dead_code)] // it is held to be dropped later
pub enum Made {
    Value(Value),
    Text(String),
}

impl Measure {
    /// Every call and its name, in the order in which they are made.
    pub const ALL: &[(Measure, &'static str)] = &[
        (Measure::BuildExtend, "build_extend"),
        (Measure::BuildPairs, "build_pairs"),
        (Measure::ExtendOne, "extend_one"),
        (Measure::Clone, "clone"),
        (Measure::Union, "union"),
        (Measure::Intersection, "intersection"),
        (Measure::Difference, "difference"),
        (Measure::Symmetric, "symmetric"),
        (Measure::Complement, "complement"),
        (Measure::ShrinkLeft, "shrink_left"),
        (Measure::PlusValue, "plus_value"),
        (Measure::TimesValue, "times_value"),
        (Measure::Contains, "contains"),
        (Measure::EqualYes, "equal_yes"),
        (Measure::EqualNo, "equal_no"),
        (Measure::Subset, "subset"),
        (Measure::PlusDense, "plus_dense"),
        (Measure::MinusDense, "minus_dense"),
        (Measure::TimesDense, "times_dense"),
        (Measure::PlusSparse, "plus_sparse"),
        (Measure::TimesSparse, "times_sparse"),
        (Measure::JsonRead, "json_read"),
        (Measure::JsonWrite, "json_write"),
        (Measure::JsonText, "json_text"),
        (Measure::EvalSum, "eval_sum"),
        (Measure::EvalChain, "eval_chain"),
        (Measure::UnionFew, "union_few"),
        (Measure::IntersectionFew, "intersection_few"),
        (Measure::DifferenceFew, "difference_few"),
        (Measure::SubsetFew, "subset_few"),
        (Measure::IntersectionValue, "intersection_value"),
        (Measure::NextFrom, "next_from"),
        (Measure::FirstFit, "first_fit"),
        (Measure::InsertRandom, "insert_random"),
        (Measure::RemoveRandom, "remove_random"),
        (Measure::PopFirst, "pop_first"),
        (Measure::UnionFresh, "union_fresh"),
        (Measure::IntersectionFresh, "inter_fresh"),
        (Measure::DifferenceFresh, "diff_fresh"),
        (Measure::SymmetricFresh, "sym_fresh"),
    ];

    /// Whether the call is measured for sets of `n` runs: the others only where they end soon, 300
    /// runs for one call alone, and once what does not depend on `n`.
    pub fn is_for(self, n: u32) -> bool {
        match self {
            Measure::JsonRead | Measure::JsonWrite | Measure::JsonText if !cfg!(json) => false,
            Measure::PlusDense | Measure::MinusDense | Measure::TimesDense | Measure::EvalSum => n <= 1000 && n != 300,
            Measure::EvalChain
            | Measure::UnionFew
            | Measure::IntersectionFew
            | Measure::DifferenceFew
            | Measure::SubsetFew => n == 10,
            Measure::PlusSparse => n <= 300,
            Measure::TimesSparse => n <= 100,
            _ => n != 300,
        }
    }

    /// How many operations one run of the call stands for.
    pub fn operations(self, inputs: &Inputs) -> u64 {
        match self {
            Measure::Contains | Measure::NextFrom => inputs.lists.probes.len() as u64,
            Measure::InsertRandom | Measure::RemoveRandom => inputs.lists.edits.len() as u64,
            Measure::PopFirst => inputs.dense.a.size(),
            Measure::UnionFresh | Measure::IntersectionFresh | Measure::DifferenceFresh | Measure::SymmetricFresh => {
                inputs.fresh.len() as u64
            }
            _ => 1,
        }
    }

    /// Makes what the call answers, where the time is that of making it, without dropping it.
    pub fn make(self, inputs: &Inputs) -> Result<Option<Made>, AllocError> {
        match self {
            Measure::JsonWrite => Ok(Some(Made::Value(json::written(inputs)?))),
            Measure::JsonText => Ok(Some(Made::Text(json::text(inputs)?))),
            _ => Ok(None),
        }
    }

    /// Whether `make` makes something.
    pub fn is_of_making_alone(self) -> bool {
        matches!(self, Measure::JsonWrite | Measure::JsonText)
    }

    /// Makes the call so many times, at least once, and returns what it answers.
    pub fn run(self, inputs: &Inputs, count: u64) -> Result<Answer> {
        match self {
            Measure::BuildExtend => repeated(count, inputs, calls::built),
            Measure::BuildPairs => repeated(count, inputs, calls::paired),
            Measure::ExtendOne => repeated(count, inputs, calls::extended),
            Measure::Clone => repeated(count, inputs, calls::cloned),
            Measure::Union => repeated(count, inputs, calls::united),
            Measure::Intersection => repeated(count, inputs, calls::common),
            Measure::Difference => repeated(count, inputs, calls::without),
            Measure::Symmetric => repeated(count, inputs, calls::alone),
            Measure::Complement => repeated(count, inputs, calls::complement),
            Measure::ShrinkLeft => repeated(count, inputs, calls::shrunk),
            Measure::PlusValue => repeated(count, inputs, calls::plus_value),
            Measure::TimesValue => repeated(count, inputs, calls::times_value),
            Measure::Contains => repeated(count, inputs, calls::hits),
            Measure::EqualYes => repeated(count, inputs, calls::is_equal),
            Measure::EqualNo => repeated(count, inputs, calls::is_other),
            Measure::Subset => repeated(count, inputs, calls::is_subset),
            Measure::PlusDense => repeated(count, inputs, calls::sum),
            Measure::MinusDense => repeated(count, inputs, calls::difference),
            Measure::TimesDense => repeated(count, inputs, calls::product),
            Measure::PlusSparse => repeated(count, inputs, calls::sparse_sum),
            Measure::TimesSparse => repeated(count, inputs, calls::sparse_product),
            Measure::JsonRead => repeated(count, inputs, json::read),
            Measure::JsonWrite => repeated(count, inputs, calls::json_write),
            Measure::JsonText => repeated(count, inputs, calls::json_text),
            Measure::EvalSum => repeated(count, inputs, calls::eval_sum),
            Measure::EvalChain => repeated(count, inputs, calls::eval_chain),
            Measure::UnionFew => repeated(count, inputs, calls::united_few),
            Measure::IntersectionFew => repeated(count, inputs, calls::common_few),
            Measure::DifferenceFew => repeated(count, inputs, calls::without_few),
            Measure::SubsetFew => repeated(count, inputs, calls::is_subset_few),
            Measure::IntersectionValue => repeated(count, inputs, calls::common_value),
            Measure::NextFrom => repeated(count, inputs, calls::nexts),
            Measure::FirstFit => repeated(count, inputs, calls::has_room),
            Measure::InsertRandom => repeated(count, inputs, calls::inserted),
            Measure::RemoveRandom => repeated(count, inputs, calls::removed),
            Measure::PopFirst => repeated(count, inputs, calls::popped),
            Measure::UnionFresh => repeated(count, inputs, fresh::united),
            Measure::IntersectionFresh => repeated(count, inputs, fresh::common),
            Measure::DifferenceFresh => repeated(count, inputs, fresh::without),
            Measure::SymmetricFresh => repeated(count, inputs, fresh::alone),
        }
    }
}

/// Makes a call so many times, at least once, and returns what it answers. The call is made through a
/// pointer, so that the compiler makes it each time and not once for all, and so that no call moves the
/// code of another.
#[inline(never)]
fn repeated(count: u64, inputs: &Inputs, call: fn(&Inputs) -> Result<Answer, AllocError>) -> Result<Answer> {
    let first = call(inputs)?;
    for _ in 1..count {
        if call(inputs)? != first {
            return Err("two calls answer differently".into());
        }
    }
    Ok(first)
}
