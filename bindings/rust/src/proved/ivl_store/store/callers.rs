// Written by bindings/rust/extract from crates/ivl_store/src/store/callers.rt.
//! The condition of [`Store::post_all`], and the call that tests it.

#[allow(unused_imports)]
use crate::rattle::prelude::*;
use super::{Post, Store, StoreFault};
use crate::proved::intervallum::width::Width;

/// Returns true exactly when each constraint among the posts has three different variables. Then
/// the posts may be passed to [`Store::post_all`]. Linear, does not allocate.
///
/// # Proved
///
/// True exactly when each constraint among the posts has three different variables.
///
/// ```text
/// ensures { IsTrue result ↔ All AreDistinct (constraints_of posts.now) }
/// ```
///
/// Words: [`AreDistinct`](crate::definitions#AreDistinct), [`constraints_of`](crate::definitions#constraints_of).
pub fn all_distinct<B: Width>(posts: &[Post<B>]) -> bool {
    for post in posts {
        if !is_distinct(post) {
            return false;
        }
    }
    true
}

/// Whether the post's constraint, if it has one, has three different variables.
fn is_distinct<B: Width>(post: &Post<B>) -> bool {
    match post {
        Post::Restrict(_, _) => true,
        Post::Require(c) => c.distinct(),
    }
}

impl<B: Width> Store<B> {
    /// Posts all as [`Store::post_all`] does, without its condition: returns `None`, and leaves the
    /// store unchanged, if a constraint among them has a variable twice. Costs what `post_all` costs,
    /// and a pass over the posts.
    ///
    /// # Errors
    ///
    /// Those of [`Store::post_all`], and only if each constraint has three different variables.
    ///
    /// # Proved
    ///
    /// `None`: some constraint has a variable twice, and the domains are unchanged. Some: one reply for each post, true exactly when the greatest domains for the posts up to it have an empty one. The domains are the greatest for all posts: of those within the old ones and the cuts, the greatest that each constraint supports. The fault names the first index, in list order, without a variable, exactly when there is one and each constraint has three different variables. The domains are then unchanged. Out of memory: each constraint has three different variables, and each index a variable. The domains are what some first posts leave, or what the cut of one more leaves of that, and the narrowings made since. Whatever is returned, domains only lose members. Domains within the old ones and the cuts that each constraint supports lie within the new ones.
    ///
    /// ```text
    /// ensures none { IfOk result (λ o. IsNone o → ¬ (All AreDistinct (constraints_of posts.now)) × (self.new ≡ self.old)) }
    /// ensures replies { IfOk result (λ o. MatchOption o ⊤ (λ replies. AnswersPosts posts.now self.old replies.items)) }
    /// ensures left { IfOk result (λ o. IsSome o → IsLeftBy posts.now (set_at self.old) (set_at self.new)) }
    /// ensures unknown { (i : ℕ) → (result ≡ Err (StoreFault.Variable i)) ↔ (All AreDistinct (constraints_of posts.now) × (first_unknown_in_posts (length self.old) posts.now ≡ Some i)) }
    /// ensures unchanged { (i : ℕ) → result ≡ Err (StoreFault.Variable i) → self.new ≡ self.old }
    /// ensures memory { result ≡ Err StoreFault.Memory → All AreDistinct (constraints_of posts.now) × (first_unknown_in_posts (length self.old) posts.now ≡ None) }
    /// ensures partly { result ≡ Err StoreFault.Memory → IsPartlyPosted posts.now self.old self.new }
    /// ensures kept_count { length self.new ≡ length self.old }
    /// ensures only_lost { LiesWithin (set_at self.new) (set_at self.old) }
    /// ensures families { (family : List (List (ℤ × ℤ))) → SupportedBy (constraints_of posts.now) (set_at family) → LiesWithin (set_at family) (CutBy posts.now (set_at self.old)) → LiesWithin (set_at family) (set_at self.new) }
    /// ```
    ///
    /// Words: [`AreDistinct`](crate::definitions#AreDistinct), [`constraints_of`](crate::definitions#constraints_of), [`AnswersPosts`](crate::definitions#AnswersPosts), [`IsLeftBy`](crate::definitions#IsLeftBy), [`set_at`](crate::definitions#set_at), [`first_unknown_in_posts`](crate::definitions#first_unknown_post), [`IsPartlyPosted`](crate::definitions#IsPartlyPosted), [`LiesWithin`](crate::definitions#LiesWithin), [`SupportedBy`](crate::definitions#SupportedBy), [`CutBy`](crate::definitions#CutBy).
    pub fn try_post_all(&mut self, posts: &[Post<B>]) -> Result<Option<Vec<bool>>, StoreFault> {
        if !all_distinct(posts) {
            return Ok(None);
        }
        Ok(Some(self.post_all(posts)?))
    }
}
