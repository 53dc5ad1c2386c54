//! Classes of a lexer: of characters, by their scalar values, and of bytes, 0xFF among them.
use intervallum::{Full, IntervalSet};

/// Splits a text into words, whose first character is of one class, and the others of another.
fn words<'a>(text: &'a str, first: &IntervalSet<char>, rest: &IntervalSet<char>) -> Vec<&'a str> {
    let mut words = Vec::new();
    let mut left = text;
    while let Some(start) = left.find(|c| first.contains(c)) {
        let word = &left[start..];
        let end = word.find(|c| !rest.contains(c)).unwrap_or(word.len());
        words.push(&word[..end]);
        left = &word[end..];
    }
    words
}

pub fn main() {
    let letter =
        IntervalSet::from(['a'..='z', 'A'..='Z', '_'..='_', 'ß'..='ÿ']).difference(&IntervalSet::singleton('÷'));
    let digit = IntervalSet::from('0'..='9');
    let word = &letter | &digit;
    assert_eq!(words("x1 = größe÷2;", &letter, &word), ["x1", "größe"]);
    assert!(digit.is_subset(&word) && digit.is_disjoint(&letter));
    assert_eq!(word.to_string(), "{[0..9][A..Z][_.._][a..z][ß..ö][ø..ÿ]}");
    let other = !&word;
    assert_eq!(other.size() + word.size(), 1_112_064, "every character is of one of the two");
    assert!(
        other.contains(char::MAX) && other.run_at('\u{d7ff}') == other.run_at('\u{e000}'),
        "runs go across the surrogates"
    );

    // what UTF-8 never has, and the first bytes of its sequences
    let never = IntervalSet::from([Full(0xc0u8)..=Full(0xc1), Full(0xf5)..=Full(0xff)]);
    let ascii = IntervalSet::from(..Full(0x80));
    let (leads, follows) = (IntervalSet::from(Full(0xc2)..=Full(0xf4)), IntervalSet::from(Full(0x80)..=Full(0xbf)));
    assert_eq!(IntervalSet::union_of([&never, &ascii, &leads, &follows]), IntervalSet::whole());
    assert!(never.contains(0xff.into()) && b"ab\xff".iter().any(|byte| never.contains((*byte).into())));
    println!("words: {word}; bytes that UTF-8 never has: {never}");
}
