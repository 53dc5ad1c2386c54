//! The shims beside models: the set in the order of insertion and the map beside those of std, the buffered writer beside what was
//! written, and the texts of all dates.
use intervallum_programs::rattle::indexmap::IndexSet;
use intervallum_programs::rattle::std::alloc::Global;
use intervallum_programs::rattle::std::collections::BTreeMap;
use intervallum_programs::rattle::std::collections::hash_map::RandomState;
use intervallum_programs::rattle::std::io::BufWriter;
use intervallum_programs::rattle::{prelude, string::String as Text};
use prelude::{jiff::civil::Date, jiff_core::civil::Date as Plain};
use std::io::{self, ErrorKind, Write};

/// Numbers that look random, by a linear congruence.
fn numbers(mut seed: u64) -> impl FnMut(usize) -> usize {
    move |below| {
        seed = seed.wrapping_mul(6364136223846793005).wrapping_add(1442695040888963407);
        (seed >> 33) as usize % below
    }
}

fn text(of: &str) -> Text {
    Text::from_str(Global, of).unwrap()
}

#[test]
fn index_set_beside_a_list() {
    let mut random = numbers(1);
    for round in 0..40 {
        let (mut set, mut list) = (IndexSet::with_hasher(Global, RandomState::new(&()).unwrap()), Vec::<String>::new());
        for _ in 0..500 {
            let word = format!("v{}", random(10 << (round % 8)));
            assert_eq!(set.get_index_of(word.as_str()), list.iter().position(|other| *other == word));
            match random(20) {
                0 => {
                    let len = random(list.len() + 2);
                    set.truncate(len);
                    list.truncate(len);
                }
                1..5 => {}
                _ => {
                    let is_new = !list.contains(&word);
                    assert_eq!(set.insert(text(&word)), Ok(is_new));
                    if is_new {
                        list.push(word);
                    }
                }
            }
            assert_eq!(set.len(), list.len());
        }
        assert!(set.as_slice().iter().map(Text::as_str).eq(list.iter().map(String::as_str)));
    }
}

#[test]
fn map_beside_that_of_std() {
    let mut random = numbers(2);
    let (mut map, mut other) = (BTreeMap::new(Global), std::collections::BTreeMap::new());
    for value in 0..60_000 {
        let key = random(20_000).to_string();
        assert_eq!(map.get(key.as_str()), other.get(&key));
        if random(4) == 0 {
            let both = (map.get_mut(key.as_str()), other.get_mut(&key));
            if let (Some(a), Some(b)) = both {
                (*a, *b) = (value, value);
            }
        } else {
            assert_eq!(map.insert(text(&key), value), Ok(other.insert(key, value)));
        }
    }
    assert!(map.values().eq(other.values()));
}

/// Takes a few bytes at a time, is interrupted, and fails after so many bytes.
struct Narrow {
    taken: Vec<u8>,
    most: usize,
    calls: usize,
}

impl Write for &mut Narrow {
    fn write(&mut self, bytes: &[u8]) -> io::Result<usize> {
        self.calls += 1;
        let room = self.most - self.taken.len();
        match self.calls % 3 {
            0 => Err(ErrorKind::Interrupted.into()),
            _ if room == 0 => Err(ErrorKind::StorageFull.into()),
            _ => {
                let count = bytes.len().min(room).min(1 + self.calls % 7000);
                self.taken.extend_from_slice(&bytes[..count]);
                Ok(count)
            }
        }
    }

    fn flush(&mut self) -> io::Result<()> {
        Ok(())
    }
}

#[test]
fn buffered_writer() {
    let mut random = numbers(3);
    for round in 0..200 {
        let most = if round % 2 == 0 { usize::MAX } else { random(60_000) };
        let mut narrow = Narrow { taken: Vec::new(), most, calls: 0 };
        let mut written = Vec::new();
        let mut failed = false;
        {
            let mut writer = BufWriter::new(Global, &mut narrow).unwrap();
            for _ in 0..60 {
                let most = if random(9) == 0 { 20_000 } else { 300 };
                let part: Vec<u8> = (0..random(most)).map(|i| i as u8).collect();
                if writer.write_all(&part).is_err() || random(10) == 0 && writer.flush().is_err() {
                    failed = true;
                    break;
                }
                written.extend(part);
            }
            failed |= writer.flush().is_err();
        }
        assert!(if failed { narrow.taken.len() == most } else { narrow.taken == written }, "round {round}");
        assert!(failed || round % 2 == 1 || narrow.taken == written);
    }
}

#[test]
fn text_of_each_date() {
    for day in -4_371_587..=2_932_896 {
        let date = Date::from_plain(Plain::from_unix_epoch_day(day).unwrap());
        if day % 5 == 0 || day.abs() > 2_900_000 {
            assert_eq!(date.to_string().parse(), Ok(date));
        }
        assert_eq!(i64::from(date.to_plain().to_unix_epoch_day()), day);
    }
    let told = |day| Date::from_plain(Plain::from_unix_epoch_day(day).unwrap()).to_string();
    assert_eq!((told(0), told(19_782)), ("1970-01-01".into(), "2024-02-29".into()));
    assert_eq!((told(-719_529), told(-4_371_587)), ("-000001-12-31".into(), "-009999-01-01".into()));
    for word in [
        "",
        "-",
        "2026-02-29",
        "2026-13-01",
        "2026-00-01",
        "2026-01-00",
        "+2026-01-01",
        "2026-01-011",
        "2026-1-01",
        "é26-01-01",
    ] {
        assert_eq!(word.parse::<Date>(), Err(()), "{word}");
    }
}
