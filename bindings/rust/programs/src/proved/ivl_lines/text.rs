// Written by bindings/rust/extract from crates/ivl_lines/src/text.rt.
//! The text of a line, and its first word.

#[allow(unused_imports)]
use crate::rattle::prelude::*;

/// Returns the text of a line that is given without its newline, less one carriage return at its
/// end. Returns `None` if the line is not UTF-8. Linear, does not allocate.
///
/// ```
/// use intervallum_programs::proved::examples::*;
/// use intervallum_programs::proved::ivl_lines::*;
///
/// fn main() -> Result<(), std::boxed::Box<dyn std::error::Error>> {
///     let alloc = Global;
///     assert_eq!(line_text(b"show a\r"), Some("show a"));
///     assert_eq!(line_text(b"\xff"), None);
///     Ok(())
/// }
/// ```
pub fn line_text(line: &[u8]) -> Option<&str> {
    match str::from_utf8(without_return(line)) {
        Ok(text) => Some(text),
        Err(_) => None,
    }
}

/// Returns the first word of a line that is given without its newline, or no bytes if it has none.
/// Linear in the bytes up to the end of that word, and does not ask whether the line is UTF-8. Does
/// not allocate.
///
/// ```
/// use intervallum_programs::proved::examples::*;
/// use intervallum_programs::proved::ivl_lines::*;
///
/// fn main() -> Result<(), std::boxed::Box<dyn std::error::Error>> {
///     let alloc = Global;
///     assert_eq!(first_word(b"  sum x y z"), b"sum".as_slice());
///     assert_eq!(first_word(b"\r"), b"".as_slice());
///     Ok(())
/// }
/// ```
pub fn first_word(line: &[u8]) -> &[u8] {
    let mut pieces = without_return(line).split(|byte| *byte == b' ');
    pieces.find(|piece| !piece.is_empty()).unwrap_or(&[])
}

fn without_return(line: &[u8]) -> &[u8] {
    match line {
        [front @ .., b'\r'] => front,
        _ => line,
    }
}
