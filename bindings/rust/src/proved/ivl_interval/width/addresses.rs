// Written by bindings/rust/extract from crates/ivl_interval/src/width/addresses.rt.
//! The numbers of IPv4 addresses.
//!
//! The number of an address is that of its four bytes, the first the highest. Addresses are ordered
//! by their numbers, so a range of addresses is an interval of numbers.
//!
//! ```
//! use intervallum::proved::examples::*;
//!
//! fn main() -> Result<(), std::boxed::Box<dyn std::error::Error>> {
//!     let alloc = Global;
//!     let (first, last) = (Ipv4Addr::new(10, 0, 0, 0), Ipv4Addr::new(10, 255, 255, 255));
//!     let net = Interval::new(number_of_address(first) as u64, number_of_address(last) as u64);
//!     assert_eq!(net.size(), 1 << 24);
//!     Ok(())
//! }
//! ```

#[allow(unused_imports)]
use crate::rattle::prelude::*;
use crate::rattle::std::net::Ipv4Addr;

/// Returns the number of an address.
///
/// `O(1)`. Does not allocate.
///
/// ```
/// use intervallum::proved::examples::*;
///
/// fn main() -> Result<(), std::boxed::Box<dyn std::error::Error>> {
///     let alloc = Global;
///     assert_eq!(number_of_address(Ipv4Addr::new(0, 0, 1, 2)), 258);
///     Ok(())
/// }
/// ```
///
/// # Proved
///
/// The result is the number of the 32 bits of the address, from 0 to 2^32 - 1.
///
/// ```text
/// ensures value { result ≡ pos (ipv4_bits address) }
/// ensures in_range { IsBetween (pos 0, pos (2 ^ 32 - 1)) result }
/// ```
///
/// Words: [`IsBetween`](crate::definitions#IsBetween).
pub fn number_of_address(address: Ipv4Addr) -> i128 {
    address.to_bits() as i128
}

/// Returns the address of a number, or `None` if the number is not from 0 to 4,294,967,295.
///
/// `O(1)`. Does not allocate.
///
/// ```
/// use intervallum::proved::examples::*;
///
/// fn main() -> Result<(), std::boxed::Box<dyn std::error::Error>> {
///     let alloc = Global;
///     assert_eq!(address_of(258), Some(Ipv4Addr::new(0, 0, 1, 2)));
///     assert_eq!(address_of(-1), None);
///     Ok(())
/// }
/// ```
///
/// # Proved
///
/// The result is the address with this number, or `None` exactly when the number is not from 0 to 2^32 - 1.
///
/// ```text
/// ensures known { IsSome result ↔ IsBetween (pos 0, pos (2 ^ 32 - 1)) number }
/// ensures same_number { IfSome result (λ a. pos (ipv4_bits a) ≡ number) }
/// ```
///
/// Words: [`IsBetween`](crate::definitions#IsBetween).
pub fn address_of(number: i128) -> Option<Ipv4Addr> {
    match u32::try_from(number) {
        Ok(bits) => Some(Ipv4Addr::from_bits(bits)),
        _ => None,
    }
}
