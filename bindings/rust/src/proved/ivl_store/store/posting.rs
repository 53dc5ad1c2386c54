// Written by bindings/rust/extract from crates/ivl_store/src/store/posting.rt.
//! Posts, taken one by one, with a reply to each.

#[allow(unused_imports)]
use crate::rattle::prelude::*;
use super::narrowed_sets::narrowed_to;
use super::post::first_unknown_post;
use super::settled::unsettle;
use super::{Constraint, Post, Store, StoreFault};
use crate::proved::intervallum::interval_set::IntervalSet;
use crate::proved::intervallum::width::Width;
use crate::rattle::std::alloc::AllocError;

impl<B: Width> Store<B> {
    /// Takes the posts in turn. Each cuts one domain or adds a constraint to those of this call;
    /// then the constraints so far narrow the domains until nothing changes. Returns one reply per
    /// post: true exactly when some domain is then empty.
    ///
    /// After all posts the domains are the greatest ones, within the old domains and the sets of
    /// all cuts, in which every member is supported by each constraint. They do not depend on the
    /// order of the posts, and each reply depends only on the posts up to its own.
    ///
    /// Costs the cuts and the narrowings, and a pass over the constraints so far for each round of
    /// narrowings and for each domain that changes.
    ///
    /// The caller must ensure that each constraint has three different variables. Check with
    /// [`Constraint::distinct`], or [`all_distinct`](super::callers::all_distinct) for a list.
    ///
    /// # Errors
    ///
    /// [`StoreFault::Variable`] for the first unknown index in list order, that of a cut included,
    /// before anything changes. [`StoreFault::Memory`] if allocation fails: the store is then as
    /// the last completed cut or narrowing left it. Replies, constraints and flags are reserved
    /// before the first cut.
    ///
    /// ```
    /// use intervallum::proved::examples::*;
    ///
    /// fn main() -> Result<(), std::boxed::Box<dyn std::error::Error>> {
    ///     let alloc = Global;
    ///     // x + y = z, for x, y and z from 0 to 9; then z is 0 or 1
    ///     let domains = Vec::from_array(alloc, [
    ///         IntervalSet::new(alloc, 0, 9)?, IntervalSet::new(alloc, 0, 9)?, IntervalSet::new(alloc, 0, 9)?])?;
    ///     let mut store: Store<i32> = Store::new(alloc, domains);
    ///     let sum = Constraint { x: 0, y: 1, z: 2 };
    ///     let cut = Post::Restrict(2, IntervalSet::new(alloc, 0, 1)?);
    ///     let replies = store.post_all(&Vec::from_array(alloc, [ Post::Require(sum), cut])?)?;
    ///     assert!(replies == Vec::from_array(alloc, [ false, false])?);
    ///     assert!(store.domains()[0] == IntervalSet::new(alloc, 0, 1)?);
    ///     Ok(())
    /// }
    /// ```
    ///
    /// # Proved
    ///
    /// The fault names the first index, in list order, without a variable, exactly when there is one. The domains are then unchanged. Domains only lose members. Domains within the old ones and the cuts that each constraint supports lie within the new ones. So no point within the cuts that solves all the constraints is lost. On success, there is one reply for each post, true exactly when the greatest domains for the posts up to it have an empty one. The domains are the greatest for all posts: of those within the old ones and the cuts, the greatest that each constraint supports. Out of memory: what some first posts leave, or what the cut of one more leaves of that, and the narrowings made since.
    ///
    /// ```text
    /// requires { All AreDistinct (constraints_of posts.now) }
    /// ensures unknown { (i : ℕ) → (result ≡ Err (StoreFault.Variable i)) ↔ (first_unknown_in_posts (length self.old) posts.now ≡ Some i) }
    /// ensures unchanged { (i : ℕ) → result ≡ Err (StoreFault.Variable i) → self.new ≡ self.old }
    /// ensures kept_count { length self.new ≡ length self.old }
    /// ensures only_lost { LiesWithin (set_at self.new) (set_at self.old) }
    /// ensures families { (family : List (List (ℤ × ℤ))) → SupportedBy (constraints_of posts.now) (set_at family) → LiesWithin (set_at family) (CutBy posts.now (set_at self.old)) → LiesWithin (set_at family) (set_at self.new) }
    /// ensures solutions { (point : ℕ → ℤ) → IsCommonSolution (constraints_of posts.now) (CutBy posts.now (set_at self.old)) point → IsCommonSolution (constraints_of posts.now) (set_at self.new) point }
    /// ensures replies { IfOk result (λ replies. AnswersPosts posts.now self.old replies.items) }
    /// ensures left { OnOk result (IsLeftBy posts.now (set_at self.old) (set_at self.new)) }
    /// ensures memory { result ≡ Err StoreFault.Memory → IsPartlyPosted posts.now self.old self.new }
    /// ```
    ///
    /// Words: [`AreDistinct`](crate::definitions#AreDistinct), [`constraints_of`](crate::definitions#constraints_of), [`first_unknown_in_posts`](crate::definitions#first_unknown_post), [`LiesWithin`](crate::definitions#LiesWithin), [`set_at`](crate::definitions#set_at), [`SupportedBy`](crate::definitions#SupportedBy), [`CutBy`](crate::definitions#CutBy), [`IsCommonSolution`](crate::definitions#IsCommonSolution), [`AnswersPosts`](crate::definitions#AnswersPosts), [`IsLeftBy`](crate::definitions#IsLeftBy), [`IsPartlyPosted`](crate::definitions#IsPartlyPosted).
    #[cfg_attr(debug_assertions, track_caller)]
    pub fn post_all(&mut self, posts: &[Post<B>]) -> Result<Vec<bool>, StoreFault> {
        debug_assert!({ #[allow(unused_imports)] use crate::proved::ivl_interval::ops::*; posts.iter().all(|post| match post { Post::Require(c) => c.distinct(), Post::Restrict(..) => true }) }, "{}", "the condition of `post_all` is broken: posts.iter().all(|post| match post { Post::Require(c) => c.distinct(), Post::Restrict(..) => true })");
        if let Some(i) = first_unknown_post(posts, self.domains.len()) {
            return Err(StoreFault::Variable(i));
        }
        Ok(self.post_known(posts)?)
    }

    /// The same for posts on variables that the store has.
    fn post_known(&mut self, posts: &[Post<B>]) -> Result<Vec<bool>, AllocError> {
        let mut replies = Vec::with_capacity(self.alloc, posts.len())?;
        let mut constraints = Vec::with_capacity(self.alloc, posts.len())?;
        let mut settled = Vec::with_capacity(self.alloc, posts.len())?;
        for post in posts {
            let reply = self.take_post(post, &mut constraints, &mut settled)?;
            // The room was reserved, so a reply that is reached is never lost.
            let has_room = replies.len() < replies.capacity();
            debug_assert!(has_room);
            replies.push(reply)?;
        }
        Ok(replies)
    }

    /// Takes one post over the constraints so far. Returns true exactly when some domain is then
    /// empty.
    fn take_post(
        &mut self,
        post: &Post<B>,
        constraints: &mut Vec<Constraint>,
        settled: &mut Vec<bool>,
    ) -> Result<bool, AllocError> {
        self.admit(post, constraints, settled)?;
        self.settle(constraints, settled)?;
        Ok(self.has_empty())
    }

    /// Cuts the domain that the post restricts, or adds the constraint that it requires.
    fn admit(
        &mut self,
        post: &Post<B>,
        constraints: &mut Vec<Constraint>,
        settled: &mut Vec<bool>,
    ) -> Result<(), AllocError> {
        match post {
            Post::Restrict(i, allowed) => {
                self.restrict_and_unsettle(*i, allowed, constraints, settled)?;
            }
            Post::Require(c) => {
                constraints.push(*c)?;
                settled.push(false)?;
            }
        }
        Ok(())
    }

    /// Keeps the members of one domain that are allowed, and clears the flags of the constraints
    /// that name the variable if it lost a member.
    fn restrict_and_unsettle(
        &mut self,
        i: usize,
        allowed: &IntervalSet<B>,
        constraints: &[Constraint],
        settled: &mut Vec<bool>,
    ) -> Result<(), AllocError> {
        let lost = self.restrict(i, allowed)?;
        unsettle(lost, constraints, i, settled);
        Ok(())
    }

    /// Keeps the members of one domain that are allowed. Returns false if that is all of them.
    fn restrict(&mut self, i: usize, allowed: &IntervalSet<B>) -> Result<bool, AllocError> {
        let left = narrowed_to(&self.domains[i], allowed)?;
        let lost = left.is_some();
        self.swap(i, left);
        Ok(lost)
    }

    /// Narrows by the constraints until none changes a domain.
    fn settle(
        &mut self,
        constraints: &[Constraint],
        settled: &mut Vec<bool>,
    ) -> Result<(), AllocError> {
        while self.round(constraints, settled)? {}
        Ok(())
    }
}
