// Written by bindings/rust/extract from crates/ivl_calculator/src/calc.rt.
//! The registers, and what each command does to them.

#[allow(unused_imports)]
use crate::rattle::prelude::*;

mod queries;
mod writes;

use crate::proved::ivl_calculator::command::Command;
use crate::proved::ivl_calculator::reply::Reply;
use crate::proved::intervallum::interval_set::IntervalSet;
use crate::proved::intervallum::sweep::Op;
use crate::proved::intervallum::width::Width;
use crate::rattle::std::alloc::{AllocError, Global};

use writes::{Merge, Part};

/// A fixed number of registers that each hold a set, for commands to read and write.
///
/// Registers are named by their indexes from 0. A contract sees the list of their run lists.
///
/// ```
/// use intervallum_programs::proved::examples::*;
/// use intervallum_programs::proved::ivl_calculator::*;
///
/// fn main() -> Result<(), std::boxed::Box<dyn std::error::Error>> {
///     let alloc = Global;
///     let mut calc: Calc<i64> = Calc::new(alloc, 2)?;
///     assert_eq!(calc.registers(), 2);
///     assert!(calc.get(2).is_none());
///     Ok(())
/// }
/// ```
pub struct Calc<B: Width> {
    alloc: Global,
    registers: Vec<IntervalSet<B>>,
}

impl<B: Width> Calc<B> {
    /// Creates a calculator with this number of registers, which may be 0. All are empty.
    /// `O(registers)`; allocates the list of the registers.
    ///
    /// # Errors
    ///
    /// Fails only if allocation fails.
    pub fn new(alloc: Global, registers: usize) -> Result<Calc<B>, AllocError> {
        let mut sets = Vec::with_capacity(alloc, registers)?;
        for _ in 0..registers {
            sets.push(IntervalSet::empty(alloc))?;
        }
        Ok(Calc {
            alloc,
            registers: sets,
        })
    }

    /// Returns the number of registers, which never changes. `O(1)`, does not allocate.
    pub fn registers(&self) -> usize {
        self.registers.len()
    }

    /// Returns the set in a register, or `None` if there is no such register. `O(1)`, does not
    /// allocate.
    pub fn get(&self, register: usize) -> Option<&IntervalSet<B>> {
        self.registers.get(register)
    }

    /// Carries out one command. [`Refusal`](crate::proved::ivl_calculator::Refusal) lists the reasons for a refusal in
    /// their order; a refused command leaves all registers unchanged.
    ///
    /// `n` and `m` are the numbers of runs of the registers that are read. A command that writes a
    /// register makes the new set first, and then replaces the old one.
    ///
    /// | Command | Cost | Memory |
    /// |---|---|---|
    /// | `Set` of `k` pairs | `O(k log k)` | at most twice `k` runs |
    /// | `Union`, `Inter`, `Diff`, `Sym` | `O(n + m)` | about `n + m` runs at most |
    /// | `Comp` | `O(n)` | `n + 1` runs |
    /// | `Left`, `Right`, `StrictLeft`, `StrictRight`, which keep `k` runs | `O(log n + k)` | `k` runs |
    /// | `Plus`, `Minus`, `Times` | `O(n m log (n m))` | at most twice `n * m` runs |
    /// | `PlusValue`, `MinusValue`, `TimesValue` | `O(n)` | `n` runs |
    /// | `Has` | `O(log n)` | none |
    /// | `Size`, `Count`, `Low`, `High` | `O(1)` | none |
    /// | `Same` | `O(n)`, `O(1)` if the sizes differ | none |
    /// | `Sub` | `O(n log (m / n + 2))` | none |
    /// | `Meets` | `O(n + m)` | none |
    /// | `Show` | `O(n)` | a copy of the runs |
    ///
    /// ```
    /// use intervallum_programs::proved::examples::*;
    /// use intervallum_programs::proved::ivl_calculator::*;
    ///
    /// fn main() -> Result<(), std::boxed::Box<dyn std::error::Error>> {
    ///     let alloc = Global;
    ///     let mut calc: Calc<i64> = Calc::new(alloc, 4)?;
    ///     calc.apply(&Command::Set(2, Vec::from_array(alloc, [ (1, 2)])?));
    ///     assert_eq!(calc.apply(&Command::Plus(1, 2, 2)), Reply::Cut(false));
    ///     Ok(())
    /// }
    /// ```
    pub fn apply(&mut self, command: &Command<B>) -> Reply<B> {
        match command {
            Command::Set(r, list) => self.set_at(*r, list),
            Command::Union(r, a, b) => self.merge_at(*r, *a, *b, Merge::Union),
            Command::Inter(r, a, b) => self.merge_at(*r, *a, *b, Merge::Intersection),
            Command::Diff(r, a, b) => self.merge_at(*r, *a, *b, Merge::Difference),
            Command::Sym(r, a, b) => self.merge_at(*r, *a, *b, Merge::SymmetricDifference),
            Command::Comp(r, a) => self.complement_at(*r, *a),
            Command::Left(r, a, v) => self.part_at(*r, *a, *v, Part::AtLeast),
            Command::Right(r, a, v) => self.part_at(*r, *a, *v, Part::AtMost),
            Command::StrictLeft(r, a, v) => self.part_at(*r, *a, *v, Part::Above),
            Command::StrictRight(r, a, v) => self.part_at(*r, *a, *v, Part::Below),
            Command::Plus(r, a, b) => self.plus_at(*r, *a, *b),
            Command::Minus(r, a, b) => self.minus_at(*r, *a, *b),
            Command::Times(r, a, b) => self.times_at(*r, *a, *b),
            Command::PlusValue(r, a, v) => self.value_at(*r, *a, *v, Op::Sum),
            Command::MinusValue(r, a, v) => self.value_at(*r, *a, *v, Op::Difference),
            Command::TimesValue(r, a, v) => self.value_at(*r, *a, *v, Op::Product),
            Command::Has(a, v) => self.has_at(*a, *v),
            Command::Size(a) => self.size_at(*a),
            Command::Count(a) => self.count_at(*a),
            Command::Low(a) => self.low_at(*a),
            Command::High(a) => self.high_at(*a),
            Command::Same(a, b) => self.same_at(*a, *b),
            Command::Sub(a, b) => self.subset_at(*a, *b),
            Command::Meets(a, b) => self.meets_at(*a, *b),
            Command::Show(a) => self.show_at(*a),
        }
    }

    /// Carries out the commands one by one, and returns their replies in order. A command that is
    /// refused, even because an allocation fails, leaves the registers unchanged, and the next one
    /// runs.
    ///
    /// Costs what the commands cost. Reserves one reply per command.
    ///
    /// # Errors
    ///
    /// Fails only if room for the replies cannot be allocated. It is reserved first: after an error
    /// no command has run.
    ///
    /// ```
    /// use intervallum_programs::proved::examples::*;
    /// use intervallum_programs::proved::ivl_calculator::*;
    ///
    /// fn main() -> Result<(), std::boxed::Box<dyn std::error::Error>> {
    ///     let alloc = Global;
    ///     let mut calc: Calc<i64> = Calc::new(alloc, 2)?;
    ///     let set = Command::Set(0, Vec::from_array(alloc, [ (5, 6), (1, 2)])?);
    ///     let replies = calc.run(&Vec::from_array(alloc, [ set, Command::Size(0)])?)?;
    ///     assert_eq!(replies, Vec::from_array(alloc, [ Reply::Done, Reply::Size(4)])?);
    ///     Ok(())
    /// }
    /// ```
    pub fn run(&mut self, commands: &[Command<B>]) -> Result<Vec<Reply<B>>, AllocError> {
        let mut replies = Vec::with_capacity(self.alloc, commands.len())?;
        for command in commands {
            let reply = self.apply(command);
            replies.push(reply)?;
        }
        Ok(replies)
    }

    /// Returns true exactly when each index has a register.
    fn has_registers<const N: usize>(&self, indexes: [usize; N]) -> bool {
        let count = self.registers();
        indexes.iter().all(|&index| index < count)
    }
}
