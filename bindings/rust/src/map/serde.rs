//! Maps by serde: the sequence of the entries, each a pair of the run and its value, and a run a pair of inclusive bounds, which
//! are written as their own type is, so `[[[1,2],"anna"],[[5,9],"bela"]]` in JSON.
//!
//! What is read may have its entries in any order, and two that touch may have equal values. An entry that crosses, has a bound
//! outside the range, or has numbers that another one has too is an error, as a value would be lost. Room is
//! reserved as entries come, and not for the number of entries that the input claims.
use super::IntervalMap;
use super::below::{Entry, Held};
use crate::proved::ops::Bounded as _;
use crate::proved::{Interval, width::Width};
use crate::set::conditions::numbers_between;
use crate::set::serde::run_between;
use alloc::vec::Vec;
use core::{fmt, marker::PhantomData};
use serde::de::{Deserialize, Deserializer, Error, SeqAccess, Visitor};
use serde::ser::{Serialize, SerializeSeq, Serializer};

/// Writes the sequence of the entries.
impl<T: Width + Serialize, V: Clone + Eq + Serialize> Serialize for IntervalMap<T, V> {
    fn serialize<S: Serializer>(&self, serializer: S) -> Result<S::Ok, S::Error> {
        let mut seq = serializer.serialize_seq(Some(self.interval_count()))?;
        for (run, value) in self {
            seq.serialize_element(&(run.into_inner(), value))?;
        }
        seq.end()
    }
}

/// Reads what is written, with the entries in any order. Runs must be in the range of `T`, must not cross, and must not have
/// common numbers.
impl<'de, T: Width + Deserialize<'de>, V: Clone + Eq + Deserialize<'de>> Deserialize<'de> for IntervalMap<T, V> {
    fn deserialize<D: Deserializer<'de>>(deserializer: D) -> Result<Self, D::Error> {
        deserializer.deserialize_seq(Form(PhantomData))
    }
}

/// Reads entries.
struct Form<T, V>(PhantomData<(T, V)>);

impl<'de, T: Width + Deserialize<'de>, V: Clone + Eq + Deserialize<'de>> Visitor<'de> for Form<T, V> {
    type Value = IntervalMap<T, V>;

    fn expecting(&self, f: &mut fmt::Formatter<'_>) -> fmt::Result {
        f.write_str("a sequence of runs with values")
    }

    fn visit_seq<A: SeqAccess<'de>>(self, mut seq: A) -> Result<IntervalMap<T, V>, A::Error> {
        let mut entries = Vec::new();
        while let Some(((lower, upper), value)) = seq.next_element::<((T, T), V)>()? {
            entries.push((run_between(lower, upper)?, Held(value)));
        }
        entries.sort_by_key(|(run, _)| run.lower());
        apart(&entries)?;
        Ok(IntervalMap::of_ascending(entries))
    }
}

/// Tests that no two runs in ascending order have common numbers.
fn apart<T: Width, V, E: Error>(entries: &[Entry<T, V>]) -> Result<(), E> {
    let told = |run: Interval<T>| numbers_between::<T>(run.lower().number(), run.upper().number());
    match entries.windows(2).find(|pair| pair[1].0.lower() <= pair[0].0.upper()) {
        None => Ok(()),
        Some(pair) => {
            Err(E::custom(format_args!("{} and {}: runs must have no common number", told(pair[0].0), told(pair[1].0))))
        }
    }
}
