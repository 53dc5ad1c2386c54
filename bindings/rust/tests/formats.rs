//! Sets of either kind in formats of serde: JSON, and a binary format of the shape of bincode, which does not describe itself.
mod binary;

use binary::{from_bytes, to_bytes};
use intervallum::proved::width::Width;
use intervallum::{Full, IntervalSet, PagedSet};
use serde::de::{DeserializeOwned, Deserializer, Error as _, MapAccess, Visitor};
use serde::{Deserialize, Serialize, forward_to_deserialize_any};
use std::alloc::{GlobalAlloc, Layout, System};
use std::cell::Cell;
use std::fmt::Debug;
use std::net::Ipv4Addr;

struct Watching;

thread_local! {
    static LARGEST: Cell<usize> = const { Cell::new(0) };
}

fn watch(size: usize) {
    LARGEST.set(LARGEST.get().max(size));
}

unsafe impl GlobalAlloc for Watching {
    unsafe fn alloc(&self, layout: Layout) -> *mut u8 {
        watch(layout.size());
        unsafe { System.alloc(layout) }
    }

    unsafe fn dealloc(&self, at: *mut u8, layout: Layout) {
        unsafe { System.dealloc(at, layout) }
    }

    unsafe fn realloc(&self, at: *mut u8, layout: Layout, size: usize) -> *mut u8 {
        watch(size);
        unsafe { System.realloc(at, layout, size) }
    }
}

#[global_allocator]
static ALLOCATOR: Watching = Watching;

/// Writes and reads a set of each kind in both formats, alone and beside other values.
fn comes_back<T: Width + Serialize + DeserializeOwned + Debug>(set: IntervalSet<T>) {
    let paged = PagedSet::from(&set);
    let bytes = to_bytes(&set).unwrap();
    assert_eq!(to_bytes(&paged).unwrap(), bytes);
    assert_eq!(from_bytes::<IntervalSet<T>>(&bytes).unwrap(), set);
    assert_eq!(from_bytes::<PagedSet<T>>(&bytes).unwrap(), paged);
    let beside = (7u8, set, paged, 9u16);
    assert_eq!(from_bytes::<(u8, IntervalSet<T>, PagedSet<T>, u16)>(&to_bytes(&beside).unwrap()).unwrap(), beside);
    let maybe = [Some(beside.1.clone()), None];
    assert_eq!(from_bytes::<[Option<IntervalSet<T>>; 2]>(&to_bytes(&maybe).unwrap()).unwrap(), maybe);

    let text = serde_json::to_string(&maybe).unwrap();
    assert_eq!(serde_json::from_str::<[Option<IntervalSet<T>>; 2]>(&text).unwrap(), maybe, "{text}");

    let text = serde_json::to_string(&beside).unwrap();
    assert_eq!(serde_json::from_str::<(u8, IntervalSet<T>, PagedSet<T>, u16)>(&text).unwrap(), beside);
    let value = serde_json::to_value(&beside.2).unwrap();
    assert_eq!(serde_json::from_value::<PagedSet<T>>(value).unwrap(), beside.2);
}

macro_rules! integers_come_back {
    ($($T:ty)*) => {$(
        let (least, greatest) = (<$T as Width>::min_value(), <$T as Width>::max_value());
        comes_back(IntervalSet::<$T>::empty());
        comes_back(IntervalSet::<$T>::whole());
        comes_back(IntervalSet::from([least..=least, 5..=5, 10..=12, greatest - 1..=greatest]));
        comes_back((0..50).map(|i| (2 * i, 2 * i)).collect::<IntervalSet<$T>>());
    )*};
}

#[test]
fn sets_of_each_type_come_back() {
    integers_come_back!(u8 u16 u32 u64 usize i8 i16 i32 i64 isize);
    comes_back(IntervalSet::from([Full(0u8)..=Full(9), Full(255)..=Full(255)]));
    comes_back(IntervalSet::<Full<u32>>::whole());
    comes_back(IntervalSet::from(['a'..='z', char::MAX..=char::MAX]));
    comes_back(IntervalSet::from([Ipv4Addr::new(10, 0, 0, 0)..=Ipv4Addr::new(10, 255, 255, 255)]));
    comes_back((0..1000).map(|i| (3 * i, 3 * i + 1)).collect::<IntervalSet<u32>>());
}

#[test]
fn the_binary_form_is_the_list_of_the_runs() {
    assert_eq!(to_bytes(&IntervalSet::<u8>::empty()).unwrap(), [0; 8]);
    let set = IntervalSet::from([256..=257u32]);
    assert_eq!(to_bytes(&set).unwrap(), [1, 0, 0, 0, 0, 0, 0, 0, 0, 1, 0, 0, 1, 1, 0, 0]);
    assert_eq!(to_bytes(&set).unwrap(), to_bytes(&vec![(256u32, 257u32)]).unwrap());
    let set = IntervalSet::from([-5..=2i8, 4..=4]);
    assert_eq!(to_bytes(&set).unwrap(), [2, 0, 0, 0, 0, 0, 0, 0, 0xfb, 2, 4, 4]);
}

#[test]
fn bounds_are_written_as_their_type_is() {
    let letters = IntervalSet::from(['a'..='z']);
    assert_eq!(serde_json::to_string(&letters).unwrap(), r#"[["a","z"]]"#);
    let local = PagedSet::from([Ipv4Addr::new(10, 0, 0, 0)..=Ipv4Addr::new(10, 255, 255, 255)]);
    assert_eq!(serde_json::to_string(&local).unwrap(), r#"[["10.0.0.0","10.255.255.255"]]"#);
    let bytes = IntervalSet::from(Full(128u8)..);
    assert_eq!((serde_json::to_string(&bytes).unwrap(), to_bytes(&bytes).unwrap().len()), ("[[128,255]]".into(), 10));
}

/// Two lists of ports, read as the code that serde derives reads a struct.
struct Lists {
    allow: IntervalSet<u16>,
    deny: PagedSet<u16>,
}

/// What a field that is missing is read from.
struct Missing(&'static str);

impl<'de> Deserializer<'de> for Missing {
    type Error = serde_json::Error;

    fn deserialize_any<V: Visitor<'de>>(self, _: V) -> Result<V::Value, serde_json::Error> {
        Err(serde_json::Error::missing_field(self.0))
    }

    fn deserialize_option<V: Visitor<'de>>(self, visitor: V) -> Result<V::Value, serde_json::Error> {
        visitor.visit_none()
    }

    forward_to_deserialize_any! {
        bool i8 i16 i32 i64 u8 u16 u32 u64 f32 f64 char str string bytes byte_buf unit unit_struct newtype_struct seq tuple
        tuple_struct map struct enum identifier ignored_any
    }
}

struct Fields;

impl<'de> Visitor<'de> for Fields {
    type Value = Result<Lists, serde_json::Error>;

    fn expecting(&self, f: &mut std::fmt::Formatter<'_>) -> std::fmt::Result {
        f.write_str("two lists")
    }

    fn visit_map<A: MapAccess<'de>>(self, mut map: A) -> Result<Self::Value, A::Error> {
        let (mut allow, mut deny) = (None, None);
        while let Some(name) = map.next_key::<String>()? {
            match name.as_str() {
                "allow" => allow = Some(map.next_value()?),
                "deny" => deny = Some(map.next_value()?),
                _ => _ = map.next_value::<serde::de::IgnoredAny>()?,
            }
        }
        let allow = allow.map_or_else(|| Deserialize::deserialize(Missing("allow")), Ok);
        let deny = deny.map_or_else(|| Deserialize::deserialize(Missing("deny")), Ok);
        Ok(allow.and_then(|allow| Ok(Lists { allow, deny: deny? })))
    }
}

fn lists(text: &str) -> Result<Lists, serde_json::Error> {
    serde_json::Deserializer::from_str(text).deserialize_map(Fields)?
}

#[test]
fn a_missing_field_is_an_error() {
    let both = lists(r#"{"allow": [[1, 2]], "deny": null}"#).unwrap();
    assert_eq!((both.allow, both.deny), (IntervalSet::from([1..=2]), PagedSet::default()));
    for (text, field) in [
        (r#"{"allow": [[1, 2]]}"#, "deny"),
        (r#"{"alow": [[1, 2]], "deny": []}"#, "allow"),
        (r#"{"allow": [[1, 2]], "Deny": []}"#, "deny"),
        ("{}", "allow"),
    ] {
        let told = lists(text).err().unwrap().to_string();
        assert!(told.starts_with(&format!("missing field `{field}`")), "{text}: {told}");
    }
    // one that may be missing says so
    assert_eq!(Option::<IntervalSet<u8>>::deserialize(Missing("allow")).unwrap(), None);
}

/// The bytes of a sequence that claims so many elements and has the numbers that are given.
fn claims(count: u64, numbers: &[u8]) -> Vec<u8> {
    [&count.to_le_bytes(), numbers].concat()
}

#[test]
fn hostile_input_is_an_error_or_the_union() {
    let set = |bytes: &[u8]| from_bytes::<IntervalSet<u8>>(bytes).map_err(|e| e.to_string());
    for count in [3, 1 << 20, 1 << 60, u64::MAX] {
        LARGEST.set(0);
        assert_eq!(set(&claims(count, &[1, 2, 5, 9])), Err("the input ends".to_owned()));
        assert_eq!(from_bytes::<PagedSet<u8>>(&claims(count, &[])).unwrap_err().to_string(), "the input ends");
        assert!(LARGEST.get() < 1024, "{count}: {} bytes", LARGEST.get());
    }
    assert_eq!(set(&claims(1, &[1, 2, 3])), Err("bytes are left".to_owned()));
    assert_eq!(set(&[1, 0, 0]), Err("the input ends".to_owned()));
    assert_eq!(set(&claims(2, &[9, 4, 7, 7])), Err("9..=4: a run must not cross".to_owned()));
    assert_eq!(set(&claims(4, &[20, 30, 1, 9, 5, 12, 13, 13])), Ok(IntervalSet::from([1..=13, 20..=30])));
    for pair in [[3, 255], [255, 255], [255, 3]] {
        assert_eq!(set(&claims(1, &pair)), Err("255: a bound must be from 0 to 254".to_owned()));
    }
    let told = from_bytes::<PagedSet<i8>>(&claims(1, &[0x80, 0])).unwrap_err().to_string();
    assert_eq!(told, "-128: a bound must be from -127 to 127");
    let told = serde_json::from_str::<IntervalSet<u8>>("[[1, 2], [3, 255]]").unwrap_err().to_string();
    assert!(told.starts_with("255: a bound must be from 0 to 254 at line 1"), "{told}");
}
