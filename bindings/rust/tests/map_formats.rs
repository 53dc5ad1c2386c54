//! Maps in formats of serde: JSON, and a binary format of the shape of bincode, which does not describe itself.
mod binary;
mod memory;

use binary::{from_bytes, to_bytes};
use intervallum::proved::width::Width;
use intervallum::{Full, IntervalMap, IntervalSet};
use memory::{Watched, cost};
use serde::de::{DeserializeOwned, value::UnitDeserializer};
use serde::{Deserialize, Serialize};
use std::fmt::Debug;
use std::net::Ipv4Addr;

#[global_allocator]
static ALLOCATOR: Watched = Watched;

/// Writes and reads a map in both formats, alone and beside other values.
fn comes_back<T, V>(map: IntervalMap<T, V>)
where
    T: Width + Serialize + DeserializeOwned + Debug,
    V: Clone + Eq + Serialize + DeserializeOwned + Debug,
{
    assert_eq!(from_bytes::<IntervalMap<T, V>>(&to_bytes(&map).unwrap()).unwrap(), map);
    let beside = (7u8, map.clone(), Some(map), None::<IntervalMap<T, V>>, 9u16);
    type Beside<M> = (u8, M, Option<M>, Option<M>, u16);
    assert_eq!(from_bytes::<Beside<IntervalMap<T, V>>>(&to_bytes(&beside).unwrap()).unwrap(), beside);
    let text = serde_json::to_string(&beside).unwrap();
    assert_eq!(serde_json::from_str::<Beside<IntervalMap<T, V>>>(&text).unwrap(), beside);
    let value = serde_json::to_value(&beside.1).unwrap();
    assert_eq!(serde_json::from_value::<IntervalMap<T, V>>(value).unwrap(), beside.1);
}

macro_rules! integers_come_back {
    ($($T:ty)*) => {$(
        let (least, greatest) = (<$T as Width>::min_value(), <$T as Width>::max_value());
        comes_back(IntervalMap::<$T, u8>::empty());
        comes_back(IntervalMap::<$T, u8>::from([(.., 7)]));
        comes_back(IntervalMap::from([(least..=least, 1u64), (5..=5, 2), (6..=6, 3), (greatest - 1..=greatest, 1)]));
        comes_back((0..50).map(|i| (2 * i, (i, i % 3))).collect::<IntervalMap<$T, ($T, $T)>>());
    )*};
}

#[test]
fn maps_of_each_type_come_back() {
    integers_come_back!(u8 u16 u32 u64 usize i8 i16 i32 i64 isize);
    comes_back(IntervalMap::from([(Full(0u8)..=Full(9), None), (Full(10)..=Full(255), Some('a'))]));
    comes_back(IntervalMap::from([('a'..='z', "letters".to_owned()), ('0'..='9', String::new())]));
    let local = Ipv4Addr::new(10, 0, 0, 0)..=Ipv4Addr::new(10, 255, 255, 255);
    comes_back(IntervalMap::from([(local, IntervalSet::from([80..=80, 443..=443u16]))]));
    comes_back((0..1000u32).map(|i| (3 * i..=3 * i + 1, i)).collect::<IntervalMap<u32, u32>>());
}

#[test]
fn the_form_is_the_list_of_the_entries() {
    let map = IntervalMap::from([(1..=2u32, "anna".to_owned()), (5..=9, "bela".to_owned())]);
    let text = r#"[[[1,2],"anna"],[[5,9],"bela"]]"#;
    assert_eq!(serde_json::to_string(&map).unwrap(), text);
    assert_eq!(serde_json::from_str::<IntervalMap<u32, String>>(text).unwrap(), map);
    assert_eq!(serde_json::to_string(&IntervalMap::<u8, u8>::empty()).unwrap(), "[]");
    let list: Vec<((u32, u32), String)> = map.iter().map(|(run, name)| (run.into_inner(), name.clone())).collect();
    assert_eq!(to_bytes(&map).unwrap(), to_bytes(&list).unwrap());
    let map = IntervalMap::from([(-5..=2i8, 7u8), (4..=4, 8)]);
    assert_eq!(to_bytes(&map).unwrap(), [2, 0, 0, 0, 0, 0, 0, 0, 0xfb, 2, 7, 4, 4, 8]);
}

#[test]
fn a_missing_map_is_an_error() {
    let told = IntervalMap::<u8, u8>::deserialize(UnitDeserializer::<serde::de::value::Error>::new()).unwrap_err();
    assert_eq!(told.to_string(), "invalid type: unit value, expected a sequence of runs with values");
    for text in ["null", "{}", "7", "[[1, 2]]", "[[[1, 2]]]", "[[[1], 7]]", "[[[1, 2], 7, 8]]", "[null]"] {
        assert!(serde_json::from_str::<IntervalMap<u8, u8>>(text).is_err(), "{text}");
    }
}

/// The map of a text, or what is told of it, without the place.
fn read(text: &str) -> Result<IntervalMap<u8, char>, String> {
    serde_json::from_str(text).map_err(|fault| fault.to_string().split(" at line").next().unwrap().to_owned())
}

#[test]
fn entries_may_come_in_any_order_but_may_not_overlap() {
    let wanted = IntervalMap::from([(1..=9, 'a'), (10..=12, 'b'), (20..=20, 'a')]);
    assert_eq!(read(r#"[[[20,20],"a"],[[10,12],"b"],[[6,9],"a"],[[1,5],"a"]]"#), Ok(wanted));
    let told = |text: &str| read(text).unwrap_err();
    assert_eq!(told(r#"[[[5,3],"a"]]"#), "5..=3: a run must not cross");
    assert_eq!(told(r#"[[[3,255],"a"]]"#), "255: a bound must be from 0 to 254");
    assert_eq!(told(r#"[[[255,3],"a"]]"#), "255: a bound must be from 0 to 254");
    let common = "runs must have no common number";
    assert_eq!(told(r#"[[[4,9],"a"],[[1,4],"b"]]"#), format!("1..=4 and 4..=9: {common}"));
    assert_eq!(told(r#"[[[1,9],"a"],[[3,3],"a"]]"#), format!("1..=9 and 3: {common}"), "of equal values, too");
    assert_eq!(told(r#"[[[1,1],"a"],[[3,3],"a"],[[1,1],"b"]]"#), format!("1 and 1: {common}"));
    assert!(told(r#"[[[1,2],"ab"]]"#).starts_with("invalid value: string \"ab\""));
}

/// The bytes of a sequence that claims so many elements and has the numbers that are given.
fn claims(count: u64, numbers: &[u8]) -> Vec<u8> {
    [&count.to_le_bytes(), numbers].concat()
}

#[test]
fn hostile_input_makes_no_room_and_takes_no_long() {
    let map = |bytes: &[u8]| from_bytes::<IntervalMap<u8, u8>>(bytes).map_err(|fault| fault.to_string());
    for count in [3, 1 << 20, 1 << 60, u64::MAX] {
        let (told, cost) = cost(|| map(&claims(count, &[1, 2, 7, 5, 9, 8])));
        assert_eq!(told, Err("the input ends".to_owned()));
        assert!(cost.largest < 1024, "{count}: {cost:?}");
    }
    assert_eq!(map(&claims(1, &[1, 2, 3, 4])), Err("bytes are left".to_owned()));
    assert_eq!(map(&claims(1, &[9, 4, 7])), Err("9..=4: a run must not cross".to_owned()));
    assert_eq!(map(&claims(2, &[9, 9, 7, 4, 8, 7])), Ok(IntervalMap::from([(4..=9, 7)])));
    // the entries of a falling list would each move those above
    let falling: Vec<((u32, u32), u32)> = (0..300_000).rev().map(|i| ((2 * i, 2 * i), i)).collect();
    let map = from_bytes::<IntervalMap<u32, u32>>(&to_bytes(&falling).unwrap()).unwrap();
    assert_eq!((map.interval_count(), map.get(599_998)), (300_000, Some(&299_999)));
}
