// Written by bindings/rust/extract from crates/ivl_lines/src/escapes.rt.
//! The text of a line, as an answer prints it.

#[allow(unused_imports)]
use crate::rattle::prelude::*;
use crate::rattle::std::fmt;

/// A text that is printed with each control character as [`char::escape_default`] writes it, so that no
/// name can move the cursor of a terminal or end a line of an answer. All other characters, the
/// backslash included, are printed as they are. Printing does not allocate.
///
/// ```
/// use intervallum_programs::proved::examples::*;
/// use intervallum_programs::proved::ivl_lines::*;
///
/// fn main() -> Result<(), std::boxed::Box<dyn std::error::Error>> {
///     let alloc = Global;
///     assert_eq!(format!("{}", Escaped("a\tb")).as_str(), "a\\tb");
///     assert_eq!(format!("{}", Escaped("\u{1b}[2J")).as_str(), "\\u{1b}[2J");
///     Ok(())
/// }
/// ```
#[derive(Clone, Copy)]
pub struct Escaped<'a>(pub &'a str);

impl<'a> fmt::Display for Escaped<'a> {
    fn fmt(&self, f: &mut fmt::Formatter) -> fmt::Result {
        write_escaped(f, self.0)
    }
}

fn write_escaped(f: &mut fmt::Formatter, text: &str) -> fmt::Result {
    for character in text.chars() {
        write_shown(f, character)?;
    }
    Ok(())
}

fn write_shown(f: &mut fmt::Formatter, character: char) -> fmt::Result {
    if character.is_control() {
        write_escape(f, character)
    } else {
        f.write_char(character)
    }
}

fn write_escape(f: &mut fmt::Formatter, character: char) -> fmt::Result {
    for part in character.escape_default() {
        f.write_char(part)?;
    }
    Ok(())
}
