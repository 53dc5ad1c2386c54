// Written by bindings/rust/extract from crates/intervallum/src/interval_set/text.rt.
//! The text of a set.

#[allow(unused_imports)]
use crate::rattle::prelude::*;
use super::IntervalSet;
use crate::proved::intervallum::width::Width;
use crate::rattle::std::fmt;

/// Proved, with these words of the trait:
///
/// The text is `{}`, that of the only run, or those of the runs between braces.
///
/// ```text
/// output = { set_text (λ p. interval_text p (B.output (B.at p.0)) (B.output (B.at p.1))) }
/// styled_output = { λ L _. styled_set_text L }
/// ```
///
/// Words: [`set_text`](crate::definitions#set_text), [`interval_text`](crate::definitions#interval_text), [`styled_set_text`](crate::definitions#styled_set_text).
impl<B: Width + fmt::Display> fmt::Display for IntervalSet<B> {
    /// Writes `{}` if the set is empty, `[1..5]` for one run, and `{[1..2][5..5]}` for more. Width
    /// and fill of the formatter have no effect. `O(n)`. Allocates nothing itself. The only errors
    /// are those of the formatter and of the texts of the bounds.
    ///
    /// ```
    /// use intervallum::proved::examples::*;
    ///
    /// fn main() -> Result<(), std::boxed::Box<dyn std::error::Error>> {
    ///     let alloc = Global;
    ///     let a: IntervalSet<i32> = [(1, 2), (5, 5)].to_interval_set(alloc)?;
    ///     assert_eq!(format!("{a}").as_str(), "{[1..2][5..5]}");
    ///     Ok(())
    /// }
    /// ```
    fn fmt(&self, f: &mut fmt::Formatter) -> fmt::Result {
        let runs = self.as_runs();
        if runs.is_empty() {
            return f.write_str("{}");
        }
        if runs.len() == 1 {
            return write!(f, "{}", runs[0]);
        }
        f.write_str("{")?;
        for run in runs {
            write!(f, "{run}")?;
        }
        f.write_str("}")
    }
}
