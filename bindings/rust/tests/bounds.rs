//! The laws of `Width` for the types of bounds that the crate adds, over all their values; of those with 2^32, the ends and
//! a million others. And sets of them.
use intervallum::{Full, IntervalSet, PagedSet, SizeNumber, Width};
use std::fmt::Debug;
use std::net::Ipv4Addr;

/// A generator of random numbers: xorshift64*.
struct Random(u64);

impl Random {
    fn below(&mut self, end: u64) -> u64 {
        self.0 ^= self.0 >> 12;
        self.0 ^= self.0 << 25;
        self.0 ^= self.0 >> 27;
        (self.0.wrapping_mul(0x2545_f491_4f6c_dd1d) >> 31) % end
    }
}

/// The numbers of a type, which are those from 0 to the greatest: all, or the ends and some of each part.
fn numbers(greatest: i128) -> Vec<i128> {
    if greatest < 1 << 21 {
        return (0..=greatest).collect();
    }
    let (mut random, mut all) = (Random(5), (0..1000).chain(greatest - 1000..=greatest).collect::<Vec<_>>());
    all.extend((0..1_000_000).map(|_| i128::from(random.below(u64::try_from(greatest).unwrap() + 1))));
    all
}

/// Each law, of values in order, with the number of each.
fn laws_hold<T: Width + Debug>(greatest: i128) {
    assert_eq!((T::min_value().number(), T::max_value().number()), (0, greatest));
    assert_eq!((T::zero().number(), T::one().number()), (0, 1));
    assert!(T::Output::from_number(u128::try_from(greatest).unwrap() + 1).is_some() && greatest < 1 << 64);
    for outside in [-1, greatest + 1, i128::MIN, i128::MAX, i64::MIN.into(), u64::MAX.into(), 1 << 32] {
        assert_eq!(T::from_number(outside), None, "{outside}");
    }
    let all = numbers(greatest);
    let mut random = Random(3);
    let mut last: Option<T> = None;
    for &number in &all {
        let value = T::from_number(number).unwrap();
        assert_eq!(value.number(), number);
        if let Some(last) = last {
            // order and equality are those of the numbers
            assert_eq!(last.cmp(&value), last.number().cmp(&number));
            assert_eq!(last == value, last.number() == number);
        }
        last = Some(value);
        let at = usize::try_from(random.below(all.len() as u64)).unwrap();
        let near = number.saturating_add(i128::from(random.below(7)) - 3).clamp(0, greatest);
        for other in [all[at], near, i128::from(random.below(300)).min(greatest)] {
            computes(value, T::from_number(other).unwrap());
        }
    }
}

/// The arithmetic of two values is that of their numbers, where the result is one of a value.
fn computes<T: Width + Debug>(value: T, other: T) {
    let (x, y) = (value.number(), other.number());
    assert_eq!((value.cmp(&other), value == other), (x.cmp(&y), x == y));
    assert_eq!(value.checked_add(other), T::from_number(x + y));
    assert_eq!(value.checked_sub(other), T::from_number(x - y));
    assert_eq!(value.checked_mul(other), T::from_number(x * y));
    if T::from_number(x + y).is_some() {
        assert_eq!(value.add_in_range(other).number(), x + y);
    }
    if x >= y {
        assert_eq!(value.sub_in_range(other).number(), x - y);
        assert_eq!(T::width(&other, &value).number(), u128::try_from(x - y).unwrap() + 1);
    }
    if T::from_number(x * y).is_some() {
        assert_eq!(value.mul_in_range(other).number(), x * y);
    }
}

#[test]
fn full_bytes() {
    laws_hold::<Full<u8>>(0xff);
    let all = IntervalSet::<Full<u8>>::whole();
    assert_eq!((all.size(), all.iter().count(), all.last(), (!&all).len()), (256, 256, Some(Full(255)), 0));
    let quoted = IntervalSet::from([Full(b'"')..=Full(b'"'), Full(0x80)..=Full(0xff)]);
    assert!(quoted.contains(0xff.into()) && !quoted.contains(Full(b'a')));
    assert_eq!((!&quoted).to_string(), "{[0..33][35..127]}");
    assert_eq!(
        (format!("{quoted:?}"), "[7..255]".parse()),
        ("{34..=34, 128..=255}".into(), Ok(IntervalSet::from(Full(7u8)..)))
    );
    let bytes: PagedSet<Full<u8>> = "grüße".bytes().map(Full).collect();
    assert_eq!(bytes.iter().map(u8::from).max(), Some(0xc3));
    assert_eq!(bytes.gaps_within(Full(0xc0)..).first(), Some(Full(0xc0)));
}

#[test]
fn full_16_bits() {
    laws_hold::<Full<u16>>(0xffff);
    let mut ports = IntervalSet::<Full<u16>>::whole();
    assert!(ports.remove(Full(65_535)) && ports.insert(Full(65_535)));
    assert_eq!((ports.size(), ports.take_first_fit(65_536)), (65_536, Some(Full(0)..=Full(65_535))));
}

#[test]
fn full_32_bits() {
    laws_hold::<Full<u32>>(0xffff_ffff);
    let all = IntervalSet::<Full<u32>>::whole();
    assert_eq!((all.size(), all.nth(1 << 31), all.run_at(Full(u32::MAX))), (1 << 32, Some(Full(1 << 31)), all.hull()));
}

#[test]
fn characters() {
    laws_hold::<char>(0x10_f7ff);
    assert!(('\0'..=char::MAX).map(|c| c.number()).eq(0..=0x10_f7ff), "in the order of Rust's ranges");
    let all = IntervalSet::<char>::whole();
    assert_eq!((all.size(), all.iter().eq('\0'..=char::MAX)), (1_112_064, true));
    let across = IntervalSet::from(['\u{d000}'..='\u{d7ff}', '\u{e000}'..='\u{e00f}']);
    assert_eq!((across.interval_count(), across.size()), (1, 0x800 + 0x10));
    assert_eq!(across.iter().nth(0x800), Some('\u{e000}'));
    let word = IntervalSet::from(['a'..='z', 'A'..='Z', '_'..='_', 'ä'..='ä']);
    assert_eq!(
        (word.to_string(), format!("{word:?}")),
        ("{[A..Z][_.._][a..z][ä..ä]}".into(), "{'A'..='Z', '_'..='_', 'a'..='z', 'ä'..='ä'}".into())
    );
    assert_eq!((word.to_string().parse().as_ref(), word.next_from('[')), (Ok(&word), Some('_')));
    let vowels: PagedSet<char> = "aeiou".chars().collect();
    assert!(vowels.is_subset(&word) && "intervallum".chars().filter(|&c| vowels.contains(c)).count() == 4);
}

#[test]
fn addresses() {
    laws_hold::<Ipv4Addr>(0xffff_ffff);
    let address = |text: &str| text.parse::<Ipv4Addr>().unwrap();
    let local = IntervalSet::from([
        address("10.0.0.0")..=address("10.255.255.255"),
        address("192.168.0.0")..=address("192.168.255.255"),
    ]);
    assert_eq!((local.size(), local.contains(address("192.168.7.7"))), ((1 << 24) + (1 << 16), true));
    let text = "{[10.0.0.0..10.255.255.255][192.168.0.0..192.168.255.255]}";
    assert_eq!((local.to_string().as_str(), text.parse().as_ref()), (text, Ok(&local)));
    assert_eq!((!&local).first_fit(1 << 30), Some(address("11.0.0.0")..=address("74.255.255.255")));
    assert!(IntervalSet::from(address("255.0.0.0")..).contains(Ipv4Addr::BROADCAST));
    assert_eq!(PagedSet::from([address("1.1.1.1"), address("1.1.1.2")]).interval_count(), 1);
}
