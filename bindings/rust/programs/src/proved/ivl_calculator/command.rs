// Written by bindings/rust/extract from crates/ivl_calculator/src/command.rt.
//! The commands.

#[allow(unused_imports)]
use crate::rattle::prelude::*;

/// A command over registers, which are named by their indexes from 0. A register that is written
/// comes first, and may be an operand too: operands are read before it is written.
///
/// See [`Calc::apply`](crate::proved::ivl_calculator::Calc::apply) for costs.
pub enum Command<B> {
    /// The register gets the union of the pairs. A pair whose first is above its second adds
    /// nothing.
    Set(usize, Vec<(B, B)>),
    /// The first register gets the union of the other two.
    Union(usize, usize, usize),
    /// The first register gets the intersection of the other two.
    Inter(usize, usize, usize),
    /// The first register gets the members of the second that are not in the third.
    Diff(usize, usize, usize),
    /// The first register gets the members of exactly one of the other two.
    Sym(usize, usize, usize),
    /// The first register gets the complement of the second within the range.
    Comp(usize, usize),
    /// The first register gets the members of the second that are at least the value.
    Left(usize, usize, B),
    /// The first register gets the members of the second that are at most the value.
    Right(usize, usize, B),
    /// The first register gets the members of the second above the value.
    StrictLeft(usize, usize, B),
    /// The first register gets the members of the second below the value.
    StrictRight(usize, usize, B),
    /// The first register gets the sums of a member of each of the other two that are in the range.
    Plus(usize, usize, usize),
    /// The first register gets the differences of a member of the second and one of the third that
    /// are in the range.
    Minus(usize, usize, usize),
    /// The first register gets, for each run of the second and each run of the third, the least run
    /// that holds their products.
    Times(usize, usize, usize),
    /// The first register gets the members of the second, each plus the value.
    PlusValue(usize, usize, B),
    /// The first register gets the members of the second, each minus the value.
    MinusValue(usize, usize, B),
    /// The first register gets, for each run of the second, the least run that holds its products
    /// with the value.
    TimesValue(usize, usize, B),
    /// Whether a value is in a register.
    Has(usize, B),
    /// The number of members of a register.
    Size(usize),
    /// The number of runs of a register.
    Count(usize),
    /// The least member of a register.
    Low(usize),
    /// The greatest member of a register.
    High(usize),
    /// Whether two registers have the same members.
    Same(usize, usize),
    /// Whether each member of the first register is in the second.
    Sub(usize, usize),
    /// Whether two registers have a member in common.
    Meets(usize, usize),
    /// The runs of a register.
    Show(usize),
}
