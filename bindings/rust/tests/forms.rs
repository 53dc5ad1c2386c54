//! The JSON form of a set by serde is the one that the proved calls read and write, but for the empty set, which these write as
//! `null`, as the original does, and for a run that crosses, which they read as none.
use intervallum::proved::ivl_json::JsonForm;
use intervallum::proved::{self, Global};
use intervallum::{IntervalSet, PagedSet};
use serde_json::Value;

/// Texts of sets of `i8`, and what is written of them; `None` where they are refused.
const TEXTS: [(&str, Option<&str>); 20] = [
    ("null", Some("[]")),
    ("[]", Some("[]")),
    ("[null, null]", Some("[]")),
    ("[[1, 3], [2, 8], null]", Some("[[1,8]]")),
    ("[[5, 5], [1, 2]]", Some("[[1,2],[5,5]]")),
    ("[[-127, 127]]", Some("[[-127,127]]")),
    ("[[3, 3], [4, 9]]", Some("[[3,9]]")),
    ("3", None),
    ("\"null\"", None),
    ("true", None),
    ("{}", None),
    ("[3]", None),
    ("[[1]]", None),
    ("[[1, 2, 3]]", None),
    ("[[]]", None),
    ("[[1.0, 2]]", None),
    ("[[-0, 2]]", None),
    ("[[1, 1e2]]", None),
    ("[[\"1\", 2]]", None),
    ("[[-128, 0]]", None),
];

/// The set that the proved call reads in a text.
fn by_proof(text: &str) -> Option<proved::IntervalSet<i8>> {
    let value: Value = text.parse().ok()?;
    proved::IntervalSet::from_value(Global, &value).ok()
}

#[test]
fn both_read_and_write_alike() {
    for (text, written) in TEXTS {
        let by_proof = by_proof(text);
        let form = by_proof.as_ref().map(|set| set.to_value(Global).unwrap().to_string());
        assert_eq!(form.as_deref().map(|form| if form == "null" { "[]" } else { form }), written, "{text}");
        let by_proof = by_proof.map(IntervalSet::from);
        let by_serde: Option<IntervalSet<i8>> = serde_json::from_str(text).ok();
        assert_eq!(by_serde, by_proof, "{text}");
        let paged: Option<PagedSet<i8>> = serde_json::from_str(text).ok();
        assert_eq!(paged.as_ref().map(PagedSet::to_set), by_proof, "{text}");
        assert_eq!(paged.map(|set| serde_json::to_string(&set).unwrap()).as_deref(), written, "{text}");
        assert_eq!(by_serde.map(|set| serde_json::to_string(&set).unwrap()).as_deref(), written, "{text}");
    }
    assert_eq!(proved::IntervalSet::<i8>::empty(Global).to_value(Global), Ok(Value::Null));
}

#[test]
fn a_crossed_run_is_an_error_by_serde_alone() {
    for text in ["[[9, 4]]", "[[1, 3], [2, 8], null, [9, 4]]"] {
        let told = serde_json::from_str::<IntervalSet<i8>>(text).unwrap_err().to_string();
        assert!(told.starts_with("9..=4: a run must not cross"), "{told}");
    }
    assert!(by_proof("[[9, 4]]").unwrap() == proved::IntervalSet::empty(Global));
    assert!(by_proof("[[1, 3], [9, 4]]").unwrap() == proved::IntervalSet::new(Global, 1, 3).unwrap());
}

#[test]
fn numbers_of_64_bits_and_faults() {
    let greatest = IntervalSet::new(u64::MAX - 2, u64::MAX - 1);
    let text = serde_json::to_string(&greatest).unwrap();
    assert_eq!(text, "[[18446744073709551613,18446744073709551614]]");
    assert_eq!(serde_json::from_str::<IntervalSet<u64>>(&text).unwrap(), greatest);
    let least = IntervalSet::singleton(i64::MIN + 1);
    assert_eq!(serde_json::to_string(&least).unwrap(), "[[-9223372036854775807,-9223372036854775807]]");
    let fault = serde_json::from_str::<IntervalSet<u8>>("[[1, 2], [3, 255]]").unwrap_err().to_string();
    assert!(fault.starts_with("255: a bound must be from 0 to 254"), "{fault}");
}
