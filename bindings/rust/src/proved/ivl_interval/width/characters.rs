// Written by bindings/rust/extract from crates/ivl_interval/src/width/characters.rt.
//! The numbers of characters.
//!
//! The number of a character is its index among all characters, in ascending order and from 0. So
//! `'\u{d7ff}'` and `'\u{e000}'`, with the surrogates between them, have consecutive numbers, and a
//! range of characters is an interval of numbers.
//!
//! ```
//! use intervallum::proved::examples::*;
//!
//! fn main() -> Result<(), std::boxed::Box<dyn std::error::Error>> {
//!     let alloc = Global;
//!     let letters = Interval::new(number_of('a') as u32, number_of('z') as u32);
//!     assert!(letters.contains(&(number_of('q') as u32)));
//!     assert_eq!(letters.size(), 26);
//!     Ok(())
//! }
//! ```

#[allow(unused_imports)]
use crate::rattle::prelude::*;

/// Returns the number of a character: its scalar value, less the 2,048 surrogates if it is above
/// them.
///
/// `O(1)`. Does not allocate.
///
/// ```
/// use intervallum::proved::examples::*;
///
/// fn main() -> Result<(), std::boxed::Box<dyn std::error::Error>> {
///     let alloc = Global;
///     assert_eq!(number_of('a'), 97);
///     assert_eq!(number_of('\u{e000}') - number_of('\u{d7ff}'), 1);
///     Ok(())
/// }
/// ```
///
/// # Proved
///
/// The result is the index of the character among all characters, from 0 to 0x10f7ff.
///
/// ```text
/// ensures value { result ≡ pos (character_number character) }
/// ensures in_range { IsBetween (pos 0, pos 0x10f7ff) result }
/// ```
///
/// Words: [`character_number`](crate::definitions#character_number), [`IsBetween`](crate::definitions#IsBetween).
pub fn number_of(character: char) -> i128 {
    let scalar = character as u32;
    if scalar < 0xe000 {
        scalar as i128
    } else {
        (scalar - 0x800) as i128
    }
}

/// Returns the character of a number, or `None` if the number is negative or above that of
/// `char::MAX`, 1,112,063.
///
/// `O(1)`. Does not allocate.
///
/// ```
/// use intervallum::proved::examples::*;
///
/// fn main() -> Result<(), std::boxed::Box<dyn std::error::Error>> {
///     let alloc = Global;
///     assert_eq!(character_of(97), Some('a'));
///     assert_eq!(character_of(0xd800), Some('\u{e000}'));
///     assert_eq!(character_of(0x110000), None);
///     Ok(())
/// }
/// ```
///
/// # Proved
///
/// The result is the character at this index among all characters, or `None` exactly when it is not from 0 to 0x10f7ff.
///
/// ```text
/// ensures known { IsSome result ↔ IsBetween (pos 0, pos 0x10f7ff) number }
/// ensures same_number { IfSome result (λ c. pos (character_number c) ≡ number) }
/// ```
///
/// Words: [`IsBetween`](crate::definitions#IsBetween), [`character_number`](crate::definitions#character_number).
pub fn character_of(number: i128) -> Option<char> {
    match u32::try_from(number) {
        Ok(place) if place < 0xd800 => char::from_u32(place),
        Ok(place) if place <= 0x10f7ff => char::from_u32(place + 0x800),
        _ => None,
    }
}
