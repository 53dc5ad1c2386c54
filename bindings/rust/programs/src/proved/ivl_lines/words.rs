// Written by bindings/rust/extract from crates/ivl_lines/src/words.rt.
//! The words of a text, separated by spaces.

#[allow(unused_imports)]
use crate::rattle::prelude::*;

/// Returns the first word and the text after it, or `None` if there is no word. Linear in what it
/// skips and returns as the word, does not allocate.
///
/// ```
/// use intervallum_programs::proved::examples::*;
/// use intervallum_programs::proved::ivl_lines::*;
///
/// fn main() -> Result<(), std::boxed::Box<dyn std::error::Error>> {
///     let alloc = Global;
///     assert_eq!(next_word("  sum x  y"), Some(("sum", "x  y")));
///     assert_eq!(next_word("   "), None);
///     Ok(())
/// }
/// ```
pub fn next_word(text: &str) -> Option<(&str, &str)> {
    let mut rest = text;
    while let Some((word, after)) = rest.split_once(' ') {
        if !word.is_empty() {
            return Some((word, after));
        }
        rest = after;
    }
    if rest.is_empty() {
        return None;
    }
    Some((rest, ""))
}

/// Returns the only word of a text, or `None` unless there is exactly one. Linear, does not
/// allocate.
///
/// ```
/// use intervallum_programs::proved::examples::*;
/// use intervallum_programs::proved::ivl_lines::*;
///
/// fn main() -> Result<(), std::boxed::Box<dyn std::error::Error>> {
///     let alloc = Global;
///     assert_eq!(one_word(" x "), Some("x"));
///     assert_eq!(one_word("x y"), None);
///     Ok(())
/// }
/// ```
pub fn one_word(text: &str) -> Option<&str> {
    let (a, rest) = next_word(text)?;
    match next_word(rest) {
        Some(_) => None,
        None => Some(a),
    }
}

/// Returns the two words of a text, or `None` unless there are exactly two. Linear, does not
/// allocate.
///
/// ```
/// use intervallum_programs::proved::examples::*;
/// use intervallum_programs::proved::ivl_lines::*;
///
/// fn main() -> Result<(), std::boxed::Box<dyn std::error::Error>> {
///     let alloc = Global;
///     assert_eq!(two_words("x y "), Some(("x", "y")));
///     assert_eq!(two_words("x"), None);
///     Ok(())
/// }
/// ```
pub fn two_words(text: &str) -> Option<(&str, &str)> {
    let (a, rest) = next_word(text)?;
    let b = one_word(rest)?;
    Some((a, b))
}

/// Returns the three words of a text, or `None` unless there are exactly three. Linear, does not
/// allocate.
///
/// ```
/// use intervallum_programs::proved::examples::*;
/// use intervallum_programs::proved::ivl_lines::*;
///
/// fn main() -> Result<(), std::boxed::Box<dyn std::error::Error>> {
///     let alloc = Global;
///     assert_eq!(three_words("x y z"), Some(("x", "y", "z")));
///     assert_eq!(three_words("x y z w"), None);
///     Ok(())
/// }
/// ```
pub fn three_words(text: &str) -> Option<(&str, &str, &str)> {
    let (a, rest) = next_word(text)?;
    let (b, c) = two_words(rest)?;
    Some((a, b, c))
}
