//! Types of bounds beside the integers of Rust: characters, IPv4 addresses, and the traits of Rust's std for [`Full`].
use crate::Full;
use crate::proved::width::{Width, addresses, characters};
use core::fmt::{self, Debug, Display};
use core::net::Ipv4Addr;
use core::num::ParseIntError;
use core::str::FromStr;

impl<N: Display> Display for Full<N> {
    fn fmt(&self, f: &mut fmt::Formatter<'_>) -> fmt::Result {
        Display::fmt(&self.0, f)
    }
}

impl<N: Debug> Debug for Full<N> {
    fn fmt(&self, f: &mut fmt::Formatter<'_>) -> fmt::Result {
        Debug::fmt(&self.0, f)
    }
}

impl<N> From<N> for Full<N> {
    fn from(value: N) -> Self {
        Self(value)
    }
}

macro_rules! full {
    ($($N:ident)*) => {$(
        impl From<Full<$N>> for $N {
            fn from(value: Full<$N>) -> $N {
                value.0
            }
        }

        impl FromStr for Full<$N> {
            type Err = ParseIntError;

            fn from_str(text: &str) -> Result<Self, ParseIntError> {
                text.parse().map(Self)
            }
        }
    )*};
}

full!(u8 u16 u32);

/// Every character. Its number is its scalar value, less the 2,048 surrogates if it is above them: so `'\u{d7ff}'` and
/// `'\u{e000}'` are consecutive, and a run goes across the gap.
///
/// Proved are both conversions, `number` and `from_number`, and that order and equality are those of the numbers. Not proved but
/// tested, over every character, is that this impl hands them on.
///
/// ```
/// use intervallum::IntervalSet;
///
/// let letters = IntervalSet::from(['a'..='z', '_'..='_']);
/// assert_eq!(letters.to_string(), "{[_.._][a..z]}");
/// assert!(letters.contains('q') && !(!&letters).contains('q'));
/// assert_eq!((letters | !IntervalSet::from('a'..='z')).size(), 0x110000 - 2048);
/// ```
impl Width for char {
    type Output = u32;

    fn min_value() -> char {
        '\0'
    }

    fn max_value() -> char {
        char::MAX
    }

    fn number(self) -> i128 {
        characters::number_of(self)
    }

    fn from_number(number: i128) -> Option<char> {
        characters::character_of(number)
    }
}

/// Every IPv4 address. Its number is that of its four bytes, the first the highest.
///
/// Proved are both conversions, `number` and `from_number`, and that order and equality are those of the numbers. Not proved but
/// tested, at a million addresses, is that this impl hands them on.
///
/// ```
/// use intervallum::IntervalSet;
/// use std::net::Ipv4Addr;
///
/// let address = |text: &str| text.parse::<Ipv4Addr>().unwrap();
/// let mut deny = IntervalSet::from([address("10.0.0.0")..=address("10.255.255.255")]);
/// deny.insert(address("11.0.0.0"));
/// assert_eq!(deny.to_string(), "[10.0.0.0..11.0.0.0]");
/// assert_eq!(deny.size(), (1 << 24) + 1);
/// ```
impl Width for Ipv4Addr {
    type Output = u64;

    fn min_value() -> Ipv4Addr {
        Ipv4Addr::UNSPECIFIED
    }

    fn max_value() -> Ipv4Addr {
        Ipv4Addr::BROADCAST
    }

    fn number(self) -> i128 {
        addresses::number_of_address(self)
    }

    fn from_number(number: i128) -> Option<Ipv4Addr> {
        addresses::address_of(number)
    }
}

#[cfg(feature = "serde")]
mod form {
    use super::Full;
    use serde::{Deserialize, Deserializer, Serialize, Serializer};

    /// Writes the integer.
    impl<N: Serialize> Serialize for Full<N> {
        fn serialize<S: Serializer>(&self, serializer: S) -> Result<S::Ok, S::Error> {
            self.0.serialize(serializer)
        }
    }

    /// Reads the integer.
    impl<'de, N: Deserialize<'de>> Deserialize<'de> for Full<N> {
        fn deserialize<D: Deserializer<'de>>(deserializer: D) -> Result<Self, D::Error> {
            N::deserialize(deserializer).map(Self)
        }
    }
}
