// Written by bindings/rust/extract from crates/ivl_lines/src/numbers.rt.
//! The numbers on a line.

#[allow(unused_imports)]
use crate::rattle::prelude::*;
use crate::proved::ivl_lines::words::next_word;
use crate::rattle::std::alloc::{AllocError, Global};

/// Parses a number: an optional minus sign and one or more digits. Returns `None` if the word is
/// not a number of `i64`. Linear, does not allocate.
///
/// ```
/// use intervallum_programs::proved::examples::*;
/// use intervallum_programs::proved::ivl_lines::*;
///
/// fn main() -> Result<(), std::boxed::Box<dyn std::error::Error>> {
///     let alloc = Global;
///     assert_eq!(number_from("-12"), Some(-12));
///     assert_eq!(number_from("+12"), None);
///     Ok(())
/// }
/// ```
pub fn number_from(word: &str) -> Option<i64> {
    if word.starts_with('+') {
        return None;
    }
    word.parse().ok()
}

/// Parses the words of a text as pairs of numbers. Returns `None` if a word is not a number, or the
/// count of words is odd. Linear; allocates the list of the pairs.
///
/// # Errors
///
/// Fails only if allocation fails.
///
/// ```
/// use intervallum_programs::proved::examples::*;
/// use intervallum_programs::proved::ivl_lines::*;
///
/// fn main() -> Result<(), std::boxed::Box<dyn std::error::Error>> {
///     let alloc = Global;
///     assert_eq!(pairs_from(alloc, "1 9 20 30")?, Some(Vec::from_array(alloc, [ (1, 9), (20, 30)])?));
///     assert_eq!(pairs_from(alloc, "1 9 20")?, None);
///     Ok(())
/// }
/// ```
pub fn pairs_from(alloc: Global, text: &str) -> Result<Option<Vec<(i64, i64)>>, AllocError> {
    let mut pairs = Vec::new(alloc);
    let mut rest = text;
    while let Some((l, after)) = next_word(rest) {
        let Some((u, after)) = next_word(after) else {
            return Ok(None);
        };
        match pair_from(l, u) {
            Some(pair) => pairs.push(pair)?,
            None => return Ok(None),
        }
        rest = after;
    }
    Ok(Some(pairs))
}

fn pair_from(l: &str, u: &str) -> Option<(i64, i64)> {
    Some((number_from(l)?, number_from(u)?))
}
