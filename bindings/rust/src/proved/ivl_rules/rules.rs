// Written by bindings/rust/extract from crates/ivl_rules/src/rules.rt.
//! Rules between variables, which are named by their indexes.
//!
//! A [`Rule`] says something of the numbers of two or three variables. [`narrowing::narrow`] takes from the domains
//! of its variables what is in no point that satisfies it: of different variables, it leaves a member exactly if some
//! point of the domains has it. `laws` has what a search or a network needs of that, for each rule alike.
//!
//! There is no rule for a factor, as `3 * x = y`: what it leaves of `y` may be a run for each member of `x`. Write
//! it by sums: `x + x1 = x2` and `x2 + x = y`, where a `Shifted` by 0 holds `x1` equal to `x`.

#[allow(unused_imports)]
use crate::rattle::prelude::*;

pub mod narrowing;
pub mod windows;

use crate::proved::ivl_store::store::Constraint;

/// What is said of the numbers of two or three variables. A shift `by` is added to the number of `x`.
#[derive(Clone, Copy, Debug, PartialEq, Eq)]
pub enum Rule {
    /// `x + y = z`.
    Sum(Constraint),
    /// `x + by = y`.
    Shifted { x: usize, y: usize, by: i64 },
    /// `x + by <= y`.
    AtMost { x: usize, y: usize, by: i64 },
    /// `x + by != y`.
    Differs { x: usize, y: usize, by: i64 },
}

impl Rule {
    /// Returns the variables of the rule, in order. A rule of two variables has its second at both `y` and `z`. `O(1)`,
    /// does not allocate.
    ///
    /// ```
    /// use intervallum::proved::examples::*;
    ///
    /// fn main() -> Result<(), std::boxed::Box<dyn std::error::Error>> {
    ///     let alloc = Global;
    ///     let before = Rule::AtMost { x: 4, y: 2, by: 0 };
    ///     assert!(before.places() == Constraint { x: 4, y: 2, z: 2 });
    ///     Ok(())
    /// }
    /// ```
    ///
    /// # Proved
    ///
    /// The result is the variables of the rule, in order; a rule of two variables has its second at both `y` and `z`.
    ///
    /// ```text
    /// ensures { result ≡ places_of self.now }
    /// ```
    ///
    /// Words: [`places_of`](crate::definitions#places).
    pub fn places(&self) -> Constraint {
        match self {
            Rule::Sum(c) => *c,
            Rule::Shifted { x, y, by: _ } => pair(*x, *y),
            Rule::AtMost { x, y, by: _ } => pair(*x, *y),
            Rule::Differs { x, y, by: _ } => pair(*x, *y),
        }
    }

    /// Returns true exactly when the rule names each of its variables once. `O(1)`, does not allocate.
    ///
    /// ```
    /// use intervallum::proved::examples::*;
    ///
    /// fn main() -> Result<(), std::boxed::Box<dyn std::error::Error>> {
    ///     let alloc = Global;
    ///     assert!(Rule::Differs { x: 0, y: 1, by: 0 }.is_over_different());
    ///     assert!(!Rule::Differs { x: 1, y: 1, by: 5 }.is_over_different());
    ///     Ok(())
    /// }
    /// ```
    ///
    /// # Proved
    ///
    /// True exactly when the rule names each of its variables once.
    ///
    /// ```text
    /// ensures { IsTrue result ↔ AreDifferent self.now }
    /// ```
    ///
    /// Words: [`AreDifferent`](crate::definitions#AreDifferent).
    pub fn is_over_different(&self) -> bool {
        match self {
            Rule::Sum(c) => c.distinct(),
            Rule::Shifted { x, y, by: _ } => *x != *y,
            Rule::AtMost { x, y, by: _ } => *x != *y,
            Rule::Differs { x, y, by: _ } => *x != *y,
        }
    }

    /// Returns true exactly for a rule that takes members only for a variable whose domain is a single number or
    /// empty: `Differs`. `O(1)`, does not allocate.
    ///
    /// ```
    /// use intervallum::proved::examples::*;
    ///
    /// fn main() -> Result<(), std::boxed::Box<dyn std::error::Error>> {
    ///     let alloc = Global;
    ///     assert!(Rule::Differs { x: 0, y: 1, by: 5 }.needs_single_numbers());
    ///     assert!(!Rule::AtMost { x: 0, y: 1, by: 5 }.needs_single_numbers());
    ///     Ok(())
    /// }
    /// ```
    ///
    /// # Proved
    ///
    /// True exactly for a `Differs`.
    ///
    /// ```text
    /// ensures { result ≡ needs_singles self.now }
    /// ```
    ///
    /// Words: [`needs_singles`](crate::definitions#needs_singles).
    pub fn needs_single_numbers(&self) -> bool {
        match self {
            Rule::Sum(_) => false,
            Rule::Shifted { x: _, y: _, by: _ } => false,
            Rule::AtMost { x: _, y: _, by: _ } => false,
            Rule::Differs { x: _, y: _, by: _ } => true,
        }
    }

    /// Returns true exactly when the rule names the variable. `O(1)`, does not allocate.
    ///
    /// ```
    /// use intervallum::proved::examples::*;
    ///
    /// fn main() -> Result<(), std::boxed::Box<dyn std::error::Error>> {
    ///     let alloc = Global;
    ///     assert!(Rule::Shifted { x: 0, y: 3, by: 1 }.names(3));
    ///     Ok(())
    /// }
    /// ```
    ///
    /// # Proved
    ///
    /// True exactly when the rule names the variable.
    ///
    /// ```text
    /// ensures { IsTrue result ↔ NamesOf self.now variable }
    /// ```
    ///
    /// Words: [`NamesOf`](crate::definitions#NamesOf).
    pub fn names(&self, variable: usize) -> bool {
        let c = self.places();
        variable == c.x || variable == c.y || variable == c.z
    }

    /// Returns the first variable of the rule that is not below `count`, or `None` if all are. `O(1)`, does not
    /// allocate.
    ///
    /// ```
    /// use intervallum::proved::examples::*;
    ///
    /// fn main() -> Result<(), std::boxed::Box<dyn std::error::Error>> {
    ///     let alloc = Global;
    ///     let rule = Rule::Shifted { x: 0, y: 3, by: 1 };
    ///     assert!(rule.first_unknown(3) == Some(3) && rule.first_unknown(4) == None);
    ///     Ok(())
    /// }
    /// ```
    ///
    /// # Proved
    ///
    /// The result is the first variable of the rule, in order, that is not below `count`, or `None` if all are.
    ///
    /// ```text
    /// ensures first { result ≡ first_unknown_in count (places_of self.now) }
    /// ensures present { result ≡ None → AllPresent count (places_of self.now) }
    /// ```
    ///
    /// Words: [`first_unknown_in`](crate::definitions#first_unknown), [`places_of`](crate::definitions#places), [`AllPresent`](crate::definitions#AllPresent).
    pub fn first_unknown(&self, count: usize) -> Option<usize> {
        self.places().first_unknown(count)
    }
}

fn pair(x: usize, y: usize) -> Constraint {
    Constraint { x, y, z: y }
}
