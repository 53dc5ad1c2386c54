//! Types of bounds that are not integers of Rust: IPv4 addresses, and a type with many values outside its range.
use intervallum::proved::{self, Global, ivl_paged};
use intervallum::{IntervalSet, PagedSet, Width};
use std::cell::Cell;
use std::fmt::{self, Debug, Display};
use std::net::Ipv4Addr;
use std::panic::{self, AssertUnwindSafe};

/// An IPv4 address. Every address is in the range, whose size takes more than 32 bits.
#[derive(Clone, Copy, PartialEq, Eq, PartialOrd, Ord, Hash)]
struct Address(Ipv4Addr);

impl Width for Address {
    type Output = u64;

    fn min_value() -> Address {
        Address(Ipv4Addr::UNSPECIFIED)
    }

    fn max_value() -> Address {
        Address(Ipv4Addr::BROADCAST)
    }

    fn number(self) -> i128 {
        u32::from(self.0).into()
    }

    fn from_number(number: i128) -> Option<Address> {
        u32::try_from(number).ok().map(|bits| Address(bits.into()))
    }
}

impl Display for Address {
    fn fmt(&self, f: &mut fmt::Formatter<'_>) -> fmt::Result {
        Display::fmt(&self.0, f)
    }
}

impl Debug for Address {
    fn fmt(&self, f: &mut fmt::Formatter<'_>) -> fmt::Result {
        Display::fmt(&self.0, f)
    }
}

fn address(text: &str) -> Address {
    Address(text.parse().unwrap())
}

/// The addresses of a network, as in `10.0.0.0/24`.
fn network(text: &str) -> (Address, Address) {
    let (first, bits) = text.split_once('/').unwrap();
    let (first, size) = (address(first), 1i128 << (32 - bits.parse::<u32>().unwrap()));
    (first, Address::from_number(first.number() + size - 1).unwrap())
}

#[test]
fn addresses() {
    let mut given = IntervalSet::from([network("10.0.1.0/24"), network("10.0.0.0/24"), network("10.0.4.0/22")]);
    assert_eq!(given.to_string(), "{[10.0.0.0..10.0.1.255][10.0.4.0..10.0.7.255]}");
    assert_eq!(format!("{given:?}"), "{10.0.0.0..=10.0.1.255, 10.0.4.0..=10.0.7.255}");
    assert_eq!((given.size(), given.contains(address("10.0.2.0"))), (1536, false));
    let free = given.gaps_within(network("10.0.0.0/16"));
    assert_eq!(free.first_fit(512), Some(address("10.0.2.0")..=address("10.0.3.255")));
    assert!(given.remove(address("10.0.0.7")) && given.insert(address("10.0.2.0")));
    assert_eq!(given.run_at(address("10.0.2.0")), Some(address("10.0.0.8")..=address("10.0.2.0")));
    assert_eq!((!&given).size() + given.size(), 1 << 32);
    assert_eq!(IntervalSet::<Address>::whole().iter().next_back(), Some(address("255.255.255.255")));
}

/// A number whose range is -100 to 100. Every other `i16` is a value outside the range.
#[derive(Clone, Copy, PartialEq, Eq, PartialOrd, Ord, Debug)]
struct Narrow(i16);

impl Width for Narrow {
    type Output = u16;

    fn min_value() -> Narrow {
        Narrow(-100)
    }

    fn max_value() -> Narrow {
        Narrow(100)
    }

    fn number(self) -> i128 {
        self.0.into()
    }

    fn from_number(number: i128) -> Option<Narrow> {
        (-100..=100).contains(&number).then_some(Narrow(number as i16))
    }
}

#[test]
fn a_narrow_range() {
    let whole = IntervalSet::<Narrow>::whole();
    assert_eq!((whole.size(), whole.lower(), whole.upper()), (201, Narrow(-100), Narrow(100)));
    let mut set = IntervalSet::from(Narrow(90)..);
    assert_eq!((set.checked_insert(Narrow(101)), set.checked_insert(Narrow(89))), (None, Some(true)));
    assert!(!set.contains(Narrow(i16::MAX)) && set.includes(Narrow(89)..=Narrow(100)));
    assert_eq!(set.range(Narrow(99)..Narrow(3000)).collect::<Vec<_>>(), [Narrow(99), Narrow(100)]);
    assert_eq!(set.checked_add_value(Narrow(1)), None);
    assert_eq!(set.checked_sub_value(Narrow(189)), Some(IntervalSet::new(Narrow(-100), Narrow(-89))));
    assert!(!set.fits_sub_value(Narrow(190)));
    assert_eq!(!whole, IntervalSet::empty());
}

thread_local! {
    static GREATEST: Cell<u8> = const { Cell::new(200) };
}

/// A number whose range ends where the thread says. A proved set that was made before it says less has numbers outside the range,
/// as one that a release build made although a condition did not hold.
#[derive(Clone, Copy, PartialEq, Eq, PartialOrd, Ord, Debug)]
struct Shrinking(u8);

impl Width for Shrinking {
    type Output = u8;

    fn min_value() -> Shrinking {
        Shrinking(0)
    }

    fn max_value() -> Shrinking {
        Shrinking(GREATEST.get())
    }

    fn number(self) -> i128 {
        self.0.into()
    }

    fn from_number(number: i128) -> Option<Shrinking> {
        u8::try_from(number).ok().map(Shrinking).filter(|value| *value <= Self::max_value())
    }
}

/// Makes the root's set of a proved one, when `most` is the greatest number of the range.
fn shrunk<P, S: From<P>>(make: impl FnOnce() -> P, most: u8) -> Result<S, String> {
    GREATEST.set(200);
    let set = make();
    GREATEST.set(most);
    let told = panic::catch_unwind(AssertUnwindSafe(|| S::from(set)));
    told.map_err(|fault| *fault.downcast::<String>().unwrap())
}

#[test]
fn a_proved_set_outside_the_range_is_refused() {
    let lists = || proved::IntervalSet::new(Global, Shrinking(5), Shrinking(150)).unwrap();
    let pages = || ivl_paged::PagedSet::of_set(&lists()).unwrap();
    for most in [150, 200] {
        assert_eq!(shrunk(lists, most).map(|set: IntervalSet<Shrinking>| set.len()), Ok(146));
        assert_eq!(shrunk(pages, most).map(|set: PagedSet<Shrinking>| set.len()), Ok(146));
    }
    let told = |kind: &str| Err(format!("{kind}::from(5..=150): the numbers must be from 0 to 149"));
    assert_eq!(shrunk(lists, 149).map(|set: IntervalSet<Shrinking>| set.len()), told("IntervalSet"));
    assert_eq!(shrunk(pages, 149).map(|set: PagedSet<Shrinking>| set.len()), told("PagedSet"));
}
