// Written by bindings/rust/extract from crates/ivl_store/src/store.rt.
//! Finite domains, narrowed by constraints `x + y = z`.
//!
//! A [`Store`] has a set of numbers for each variable, its domain. Variables are named by their
//! indexes from 0. Narrowing by a constraint removes members that are in no solution from the
//! domains of its variables, and never removes one that is. [`Store::narrow`] narrows by one
//! constraint once, [`Store::propagate`] by a list in rounds, and [`Store::post_all`] takes cuts
//! and constraints one by one and replies after each whether a domain is empty.
//!
//! A constraint supports domains if each member of a domain that it names is in a solution of it over
//! these domains.
//!
//! ```
//! use intervallum::proved::examples::*;
//!
//! fn main() -> Result<(), std::boxed::Box<dyn std::error::Error>> {
//!     let alloc = Global;
//!     // x + y = z
//!     let sum = Constraint { x: 0, y: 1, z: 2 };
//!     let domains = Vec::from_array(alloc, [
//!         IntervalSet::new(alloc, 0, 10)?, IntervalSet::new(alloc, 3, 4)?, IntervalSet::new(alloc, 5, 6)?])?;
//!     let mut store: Store<i32> = Store::new(alloc, domains);
//!     assert!(store.narrow(&sum)?);
//!     assert!(store.domains()[0] == IntervalSet::new(alloc, 1, 3)?);
//!     Ok(())
//! }
//! ```

#[allow(unused_imports)]
use crate::rattle::prelude::*;

mod by_words;
pub mod callers;
mod constraint;
mod costs;

pub mod narrowed_sets;
mod narrowing;
mod post;
mod posting;
mod settled;
mod spares;
mod swapping;
mod words;

pub use constraint::{Constraint, StoreFault};
use crate::proved::intervallum::interval_set::IntervalSet;
use crate::proved::intervallum::ops::IsEmpty;
use crate::proved::intervallum::width::Width;
pub use post::Post;
pub use settled::Lost;
pub use spares::Spares;
use crate::rattle::std::alloc::{AllocError, Global};

/// The domains of some variables: a set of numbers for each. A contract sees the list of their run
/// lists.
///
/// Only [`Store::add_variable`] changes the number of variables, and domains only lose members. A
/// call that fails with [`StoreFault::Variable`] leaves the store unchanged.
pub struct Store<B: Width> {
    alloc: Global,
    domains: Vec<IntervalSet<B>>,
    // How many domains are empty.
    empties: usize,
}

impl<B: Width> Store<B> {
    /// Creates a store with these domains, in this order. Later calls use `alloc` for their
    /// bookkeeping. `O(1)` per domain, does not allocate.
    ///
    /// ```
    /// use intervallum::proved::examples::*;
    ///
    /// fn main() -> Result<(), std::boxed::Box<dyn std::error::Error>> {
    ///     let alloc = Global;
    ///     let store: Store<i32> = Store::new(alloc, Vec::from_array(alloc, [ IntervalSet::new(alloc, 0, 9)?])?);
    ///     assert_eq!(store.domains().len(), 1);
    ///     Ok(())
    /// }
    /// ```
    ///
    /// # Proved
    ///
    /// The domains are those that were given, in this order.
    ///
    /// ```text
    /// ensures { result ≡ domains.items }
    /// ```
    pub fn new(alloc: Global, domains: Vec<IntervalSet<B>>) -> Store<B> {
        let mut empties = 0;
        for domain in &domains {
            domain.in_whole();
            let is = one_if(domain.is_empty());
            empties += is;
        }
        Store {
            alloc,
            domains,
            empties,
        }
    }

    /// Makes room for so many more variables: adding them reallocates nothing. Linear in the variables
    /// where memory is allocated, else `O(1)`.
    ///
    /// # Errors
    ///
    /// Fails only if allocation fails. The store is unchanged whatever the result.
    ///
    /// ```
    /// use intervallum::proved::examples::*;
    ///
    /// fn main() -> Result<(), std::boxed::Box<dyn std::error::Error>> {
    ///     let alloc = Global;
    ///     let mut store: Store<i32> = Store::new(alloc, Vec::from_array(alloc, [ IntervalSet::new(alloc, 0, 9)?])?);
    ///     store.reserve(2)?;
    ///     assert_eq!(store.domains().len(), 1);
    ///     Ok(())
    /// }
    /// ```
    ///
    /// # Proved
    ///
    /// The domains stay as they are, whatever the result.
    ///
    /// ```text
    /// ensures same { self.new ≡ self.old }
    /// ```
    pub fn reserve(&mut self, variables: usize) -> Result<(), AllocError> {
        self.domains.reserve(variables)?;
        Ok(())
    }

    /// Returns the domains, in the order of the variables. `O(1)`, does not allocate.
    ///
    /// # Proved
    ///
    /// The slice has the domains, in order. The runs of each ascend, lie in the range, and neither overlap nor touch.
    ///
    /// ```text
    /// ensures same { result.now ≡ self.now }
    /// ensures runs { All (IsRunListIn B.whole) self.now }
    /// ```
    ///
    /// Words: [`IsRunListIn`](crate::definitions#IsRunListIn).
    pub fn domains(&self) -> &[IntervalSet<B>] {
        self.domains.as_slice()
    }

    /// Adds a variable with this domain after the others, and returns its index. Amortized `O(1)`.
    ///
    /// # Errors
    ///
    /// Fails only if allocation fails. The store is unchanged after an error.
    ///
    /// ```
    /// use intervallum::proved::examples::*;
    ///
    /// fn main() -> Result<(), std::boxed::Box<dyn std::error::Error>> {
    ///     let alloc = Global;
    ///     let mut store: Store<i32> = Store::new(alloc, Vec::from_array(alloc, [ IntervalSet::new(alloc, 0, 9)?])?);
    ///     assert_eq!(store.add_variable(IntervalSet::new(alloc, 3, 4)?)?, 1);
    ///     assert!(store.domains()[1] == IntervalSet::new(alloc, 3, 4)?);
    ///     Ok(())
    /// }
    /// ```
    ///
    /// # Proved
    ///
    /// On success, the domain is added after the others, and the result is its index: the number of variables before. If it fails, the domains are unchanged.
    ///
    /// ```text
    /// ensures index { IfOk result (λ i. i ≡ length self.old) }
    /// ensures added { OnOk result (self.new ≡ self.old ++ domain ∷ []) }
    /// ensures err { OnErr result (self.new ≡ self.old) }
    /// ```
    pub fn add_variable(&mut self, domain: IntervalSet<B>) -> Result<usize, AllocError> {
        let index = self.domains.len();
        domain.in_whole();
        let is = one_if(domain.is_empty());
        self.domains.push(domain)?;
        self.empties += is;
        Ok(index)
    }

    /// Returns true exactly when some domain is empty: then no point solves any constraints. `O(1)`,
    /// does not allocate.
    ///
    /// ```
    /// use intervallum::proved::examples::*;
    ///
    /// fn main() -> Result<(), std::boxed::Box<dyn std::error::Error>> {
    ///     let alloc = Global;
    ///     let mut store: Store<i32> = Store::new(alloc, Vec::from_array(alloc, [ IntervalSet::new(alloc, 0, 9)?])?);
    ///     assert!(!store.has_empty());
    ///     store.add_variable(IntervalSet::empty(alloc))?;
    ///     assert!(store.has_empty());
    ///     Ok(())
    /// }
    /// ```
    ///
    /// # Proved
    ///
    /// True exactly when the domain of some variable has no run, and so no member.
    ///
    /// ```text
    /// ensures empty { IsTrue result ↔ Any (λ L. L ≡ []) self.now }
    /// ensures variable { IsTrue result ↔ HasEmpty (length self.now) (set_at self.now) }
    /// ```
    ///
    /// Words: [`HasEmpty`](crate::definitions#HasEmpty), [`set_at`](crate::definitions#set_at).
    pub fn has_empty(&self) -> bool {
        self.empties > 0
    }
}

/// One if so, and else 0.
fn one_if(is_so: bool) -> usize {
    if is_so { 1 } else { 0 }
}
