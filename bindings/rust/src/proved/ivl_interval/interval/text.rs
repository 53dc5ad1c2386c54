// Written by bindings/rust/extract from crates/ivl_interval/src/interval/text.rt.
//! The text of an interval.

#[allow(unused_imports)]
use crate::rattle::prelude::*;
use crate::proved::ivl_interval::interval::Interval;
use crate::proved::ivl_interval::ops::IsEmpty;
use crate::proved::ivl_interval::width::Width;
use crate::rattle::std::fmt;

/// Proved, with these words of the trait:
///
/// The text is `{}` if the bounds cross, else the two bounds as in `[1..5]`.
///
/// ```text
/// output = { λ p. interval_text p (B.output (B.at p.0)) (B.output (B.at p.1)) }
/// styled_output = { λ p _. styled_interval_text p }
/// ```
///
/// Words: [`interval_text`](crate::definitions#interval_text), [`styled_interval_text`](crate::definitions#styled_interval_text).
impl<B: Width + fmt::Display> fmt::Display for Interval<B> {
    /// Writes `{}` if the interval is empty, else the two bounds as in `[1..5]`. Width and fill of
    /// the formatter have no effect.
    ///
    /// The only errors are those of the formatter and of the texts of the bounds.
    ///
    /// ```
    /// use intervallum::proved::examples::*;
    ///
    /// fn main() -> Result<(), std::boxed::Box<dyn std::error::Error>> {
    ///     let alloc = Global;
    ///     let a = Interval::new(1i32, 5);
    ///     assert_eq!(format!("{a}").as_str(), "[1..5]");
    ///     Ok(())
    /// }
    /// ```
    fn fmt(&self, f: &mut fmt::Formatter) -> fmt::Result {
        if self.is_empty() {
            f.write_str("{}")
        } else {
            write!(f, "[{}..{}]", self.lb, self.ub)
        }
    }
}
