//! What is written by serde is read back, in bincode, in JSON, and in both kinds of token streams: of formats for people, whose
//! options are tagged, and of compact ones.
use intervallum::proved::width::Width;
use intervallum::{Full, IntervalMap, IntervalSet, PagedSet};
use serde::{Serialize, de::DeserializeOwned};
use serde_test::Token::{self, Seq, SeqEnd, Tuple, TupleEnd, U8, U32, Unit};
use serde_test::{Configure, assert_de_tokens, assert_de_tokens_error, assert_tokens};
use std::fmt::Debug;
use std::net::Ipv4Addr;

/// Writes a value and reads it back, by bincode and in JSON.
fn comes_back<M: Serialize + DeserializeOwned + PartialEq + Debug>(value: &M) {
    let bytes = bincode::serialize(value).unwrap();
    assert_eq!(&bincode::deserialize::<M>(&bytes).unwrap(), value);
    let text = serde_json::to_string(value).unwrap();
    assert_eq!(&serde_json::from_str::<M>(&text).unwrap(), value, "{text}");
    let tree = serde_json::to_value(value).unwrap();
    assert_eq!(&serde_json::from_value::<M>(tree).unwrap(), value, "{text}");
}

/// The same of a set of both kinds and of a map with its runs, in options and lists of options, where the empty one is not `None`.
fn all_come_back<T: Width + Serialize + DeserializeOwned + Debug>(set: IntervalSet<T>) {
    let map: IntervalMap<T, Option<IntervalSet<T>>> = set.runs().map(|run| (run, Some(set.clone()))).collect();
    let paged = PagedSet::from(&set);
    comes_back(&(Some(set.clone()), None::<IntervalSet<T>>, Some(IntervalSet::<T>::empty())));
    comes_back(&(Some(paged), None::<PagedSet<T>>, vec![Some(PagedSet::<T>::empty()), None]));
    comes_back(&(Some(map), None::<IntervalMap<T, u8>>, Some(IntervalMap::<T, u8>::empty())));
}

#[test]
fn sets_and_maps_come_back_from_bincode_and_json() {
    all_come_back(IntervalSet::<u32>::empty());
    all_come_back(IntervalSet::from([0..=0, 5..=254u8]));
    all_come_back(IntervalSet::<i64>::from([i64::MIN + 1..=-4, 7..=i64::MAX]));
    all_come_back(IntervalSet::from([Full(0u16)..=Full(9), Full(u16::MAX)..=Full(u16::MAX)]));
    all_come_back(IntervalSet::from(['a'..='z', '\0'..='\0', char::MAX..=char::MAX]));
    all_come_back(IntervalSet::from([Ipv4Addr::LOCALHOST..=Ipv4Addr::BROADCAST]));
    all_come_back((0..300).map(|i| (3 * i, 3 * i + 1)).collect::<IntervalSet<u64>>());
}

#[test]
fn nobody_is_not_everybody() {
    let text = |only: Option<IntervalSet<u32>>| serde_json::to_string(&only).unwrap();
    assert_eq!((text(Some(IntervalSet::empty())), text(None)), ("[]".into(), "null".into()));
    // `null` is the empty set where no option is asked for
    assert_eq!(serde_json::from_str::<IntervalSet<u32>>("null").unwrap(), IntervalSet::empty());
    assert_eq!(serde_json::from_str::<PagedSet<u32>>("[null, [1, 2]]").unwrap(), PagedSet::from(1..=2));
}

/// The tokens of runs from 1 to 2 and from 5 to 9.
const RUNS: [Token; 10] = [
    Seq { len: Some(2) },
    Tuple { len: 2 },
    U32(1),
    U32(2),
    TupleEnd,
    Tuple { len: 2 },
    U32(5),
    U32(9),
    TupleEnd,
    SeqEnd,
];
const NOTHING: [Token; 2] = [Seq { len: Some(0) }, SeqEnd];

macro_rules! have_tokens {
    ($($Set:ident)*) => {$(
        let (set, nothing) = ($Set::from([1..=2u32, 5..=9]), $Set::<u32>::empty());
        for (set, tokens) in [(&set, &RUNS[..]), (&nothing, &NOTHING[..])] {
            assert_tokens(&set.clone().readable(), tokens);
            assert_tokens(&set.clone().compact(), tokens);
            let tagged = [&[Token::Some], tokens].concat();
            assert_tokens(&Some(set.clone()).readable(), &tagged);
            assert_tokens(&Some(set.clone()).compact(), &tagged);
        }
        assert_tokens(&None::<$Set<u32>>.readable(), &[Token::None]);
        assert_tokens(&None::<$Set<u32>>.compact(), &[Token::None]);
        for none in [Unit, Token::None] {
            assert_de_tokens(&nothing.clone().readable(), &[none]);
            assert_de_tokens(&$Set::from([7..=7u32]).readable(),
                &[Seq { len: None }, none, Tuple { len: 2 }, U32(7), U32(7), TupleEnd, SeqEnd]);
        }
        assert_de_tokens(&set.readable(), &[&[Token::Some][..], &RUNS].concat());
        let crossed = [Seq { len: Some(1) }, Tuple { len: 2 }, U32(5), U32(1), TupleEnd, SeqEnd];
        assert_de_tokens_error::<serde_test::Readable<$Set<u32>>>(&crossed, "5..=1: a run must not cross");
        assert_de_tokens_error::<serde_test::Compact<$Set<u32>>>(&crossed, "5..=1: a run must not cross");
    )*};
}

#[test]
fn formats_with_tagged_options_read_what_they_wrote() {
    have_tokens!(IntervalSet PagedSet);
    let map = IntervalMap::from([(5..=9u32, 7u8)]);
    let pair =
        [Seq { len: Some(1) }, Tuple { len: 2 }, Tuple { len: 2 }, U32(5), U32(9), TupleEnd, U8(7), TupleEnd, SeqEnd];
    assert_tokens(&map.clone().readable(), &pair);
    assert_tokens(&map.compact(), &pair);
    assert_tokens(&Some(IntervalMap::<u32, u8>::empty()).readable(), &[&[Token::Some][..], &NOTHING].concat());
}

#[test]
fn a_crossed_run_is_an_error() {
    let told = |text: &str| serde_json::from_str::<IntervalSet<u32>>(text).unwrap_err().to_string();
    assert!(told("[[1, 2], [5, 1]]").starts_with("5..=1: a run must not cross at line 1"));
    let bytes = bincode::serialize(&[(5u32, 1u32)][..]).unwrap();
    let told = bincode::deserialize::<PagedSet<u32>>(&bytes).unwrap_err().to_string();
    assert_eq!(told, "5..=1: a run must not cross");
}
