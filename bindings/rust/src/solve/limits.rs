//! Where a search ends.
use crate::proved::ivl_search::search;
use crate::set::conditions::contract;

/// How far a search goes: to so many solutions, and through so many nodes of its tree.
///
/// A node is a choice, or a part of the narrowing between two choices; each solution takes a node. By itself a search may find any number
/// of solutions, in a million nodes.
///
/// ```
/// use intervallum::solve::{End, Limits, Model};
///
/// let mut model = Model::new();
/// let pair = model.variables(2, 1..=1000u32);
/// model.all_different(&pair);
/// let limits = Limits::default().solutions(2);
/// assert_eq!((model.solutions(limits).len(), model.solutions(limits).end()), (2, End::Solutions));
/// assert_eq!(model.count(limits.nodes(1)).1, End::Nodes);
/// ```
#[derive(Clone, Copy, Debug, PartialEq, Eq)]
pub struct Limits(pub(super) search::Limits);

impl Default for Limits {
    fn default() -> Self {
        Self(search::Limits { solutions: usize::MAX, nodes: 1_000_000 })
    }
}

impl Limits {
    /// Returns the limits with another number of solutions.
    ///
    /// ```
    /// # use intervallum::solve::{End, Limits, Model};
    /// let mut model = Model::new();
    /// _ = model.variable(1..=9);
    /// assert_eq!(model.count(Limits::default().solutions(3)), (3, End::Solutions));
    /// ```
    #[doc = contract!(tested)]
    #[must_use]
    pub fn solutions(mut self, most: usize) -> Self {
        self.0.solutions = most;
        self
    }

    /// Returns the limits with another number of nodes.
    ///
    /// ```
    /// # use intervallum::solve::{End, Limits, Model};
    /// let mut model = Model::new();
    /// _ = model.variable(1..=9);
    /// assert_eq!(model.count(Limits::default().nodes(0)), (0, End::Nodes));
    /// ```
    #[doc = contract!(tested)]
    #[must_use]
    pub fn nodes(mut self, most: u64) -> Self {
        self.0.nodes = most;
        self
    }
}

/// Why a search ended.
#[derive(Clone, Copy, Debug, PartialEq, Eq)]
#[non_exhaustive]
pub enum End {
    /// All solutions were found, or there is no better one.
    All,
    /// As many solutions as the limits allow were found.
    Solutions,
    /// As many nodes as the limits allow were visited.
    Nodes,
}

impl From<search::End> for End {
    fn from(end: search::End) -> Self {
        match end {
            search::End::All => End::All,
            search::End::Solutions => End::Solutions,
            search::End::Nodes => End::Nodes,
        }
    }
}
