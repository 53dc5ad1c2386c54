// Written by bindings/rust/extract from crates/ivl_paged/src/paged_set/rank.rt.
//! The number of runs and of members, and members by the number of members below them.

#[allow(unused_imports)]
use crate::rattle::prelude::*;
use super::PagedSet;
use crate::proved::intervallum::ops::Cardinality;
use crate::proved::intervallum::width::{SizeNumber, Width};

impl<B: Width> PagedSet<B> {
    /// Returns the number of runs. `O(1)`. Does not allocate.
    ///
    /// ```
    /// use intervallum::proved::examples::*;
    ///
    /// fn main() -> Result<(), std::boxed::Box<dyn std::error::Error>> {
    ///     let alloc = Global;
    ///     let mut a = PagedSet::new(alloc);
    ///     assert!(a.insert(2)? && a.insert(5)? && a.insert(6)?);
    ///     assert_eq!(a.interval_count(), 2);
    ///     Ok(())
    /// }
    /// ```
    ///
    /// # Proved
    ///
    /// The result is the number of runs.
    ///
    /// ```text
    /// ensures { result ≡ length self.now }
    /// ```
    pub fn interval_count(&self) -> usize {
        self.pages.interval_count()
    }

    /// Returns the number of members. Adds up what each group of 64 pages has, then each page of one group:
    /// `O(n / (64 page) + 64)`. Never overflows. Does not allocate.
    ///
    /// ```
    /// use intervallum::proved::examples::*;
    ///
    /// fn main() -> Result<(), std::boxed::Box<dyn std::error::Error>> {
    ///     let alloc = Global;
    ///     let mut a: PagedSet<i32> = PagedSet::new(alloc);
    ///     a.insert_interval(Interval::new(1, 5))?;
    ///     assert_eq!(a.size(), 5u32);
    ///     Ok(())
    /// }
    /// ```
    ///
    /// # Proved
    ///
    /// The result is the number of members.
    ///
    /// ```text
    /// ensures { IsCountOf (B.Output.size result) (Covers self.now) }
    /// ```
    ///
    /// Words: [`IsCountOf`](crate::definitions#IsCountOf), [`Covers`](crate::definitions#Covers).
    pub fn size(&self) -> B::Output {
        let size = self.pages.size_before(self.pages.len());
        B::Output::from_number(size).unwrap()
    }

    /// Returns the number of members below `v`, which may be any value of its type. Adds up what each group of
    /// 64 pages below has, then each page of one group, and scans one page: `O(n / (64 page) + 64 + page)`. Does not
    /// allocate.
    ///
    /// ```
    /// use intervallum::proved::examples::*;
    ///
    /// fn main() -> Result<(), std::boxed::Box<dyn std::error::Error>> {
    ///     let alloc = Global;
    ///     let mut a: PagedSet<i32> = PagedSet::new(alloc);
    ///     assert!(a.insert(2)? && a.insert(5)?);
    ///     assert!(a.rank(2) == 0 && a.rank(5) == 1 && a.rank(6) == 2);
    ///     Ok(())
    /// }
    /// ```
    ///
    /// # Proved
    ///
    /// The result is the number of members below `v`.
    ///
    /// ```text
    /// ensures { IsCountOf (B.Output.size result) (Below (B.value v) (Covers self.now)) }
    /// ```
    ///
    /// Words: [`IsCountOf`](crate::definitions#IsCountOf), [`Below`](crate::definitions#Below), [`Covers`](crate::definitions#Covers).
    pub fn rank(&self, v: B) -> B::Output {
        let count = self.pages.starts_up_to(v);
        if count == 0 {
            return <B::Output as SizeNumber>::zero();
        }
        let below = self.pages.size_before(count - 1);
        let here = self.pages.page(count - 1).set().rank(v);
        B::Output::from_number(below).unwrap().add_in_range(here)
    }

    /// Returns the member with exactly `i` members below it, or `None` if the set has no more than
    /// `i` members. Reads how many each group of 64 pages has, then each page of one group, and scans one page:
    /// `O(n / (64 page) + 64 + page)`. Does not allocate.
    ///
    /// ```
    /// use intervallum::proved::examples::*;
    ///
    /// fn main() -> Result<(), std::boxed::Box<dyn std::error::Error>> {
    ///     let alloc = Global;
    ///     let mut a: PagedSet<i32> = PagedSet::new(alloc);
    ///     assert!(a.insert(2)? && a.insert(5)?);
    ///     assert!(a.nth(0) == Some(2) && a.nth(1) == Some(5) && a.nth(2).is_none());
    ///     Ok(())
    /// }
    /// ```
    ///
    /// # Proved
    ///
    /// The result is the member with exactly `i` members below it, or `None` if the set has no more than `i` members.
    ///
    /// ```text
    /// ensures { MatchOption result
    ///     ((n : ℕ) → IsCountOf n (Covers self.now) → n ≤ B.Output.size i)
    ///     (λ x. Covers self.now (B.value x) × IsCountOf (B.Output.size i) (Below (B.value x) (Covers self.now))) }
    /// ```
    ///
    /// Words: [`IsCountOf`](crate::definitions#IsCountOf), [`Covers`](crate::definitions#Covers), [`Below`](crate::definitions#Below).
    pub fn nth(&self, i: B::Output) -> Option<B> {
        let (start, behind) = self.pages.pass_groups(i.number());
        let mut left = B::Output::from_number(behind).unwrap();
        let pages = self.pages.as_slice();
        for k in start..pages.len() {
            let page = &pages[k];
            match left.checked_sub(page.set().size()) {
                Some(rest) => left = rest,
                None => return page.set().nth(left),
            }
        }
        None
    }
}
