//! A switch over ranges, as a compiler makes it: which case a number takes, what no case takes, and which cases can be one.
use intervallum::IntervalMap;

#[derive(Clone, Copy, Debug, PartialEq, Eq, Hash)]
struct Block(u32);

/// The cases of a switch. Of two cases with a common number the first is told.
fn switch(cases: &[(i64, i64, Block)]) -> Result<IntervalMap<i64, Block>, String> {
    let mut table = IntervalMap::new();
    for &(lower, upper, block) in cases {
        table.insert_if_free(lower..=upper, block).map_err(|(run, first)| {
            format!("case {lower}..={upper} has numbers of {run:?}, which goes to {first:?}")
        })?;
    }
    Ok(table)
}

/// The tests of a switch as a tree of comparisons: one for each level.
fn depth(cases: usize) -> u32 {
    (cases + 1).next_power_of_two().ilog2()
}

pub fn main() {
    let letters = Block(1);
    let table =
        switch(&[(97, 122, letters), (48, 57, Block(2)), (65, 90, letters), (95, 95, letters), (10, 13, Block(3))]);
    let mut table = table.unwrap();
    assert_eq!((table.get(104), table.get(54), table.get(96)), (Some(&letters), Some(&Block(2)), None));
    let fault = switch(&[(0, 9, Block(1)), (5, 12, Block(2))]).unwrap_err();
    assert_eq!(fault, "case 5..=12 has numbers of 0..=9, which goes to Block(1)");

    // what is known of the number takes cases away, and what no case takes is the default
    let known = table.cut_to(48..=127);
    assert_eq!(
        (known.interval_count(), known.gaps_within(48..=127).to_string()),
        (4, "{[58..64][91..94][96..96][123..127]}".into())
    );
    // the default goes to the block of the letters: the cases between them are one
    for gap in table.gaps_within(58..=127).into_runs() {
        table.insert(gap, letters);
    }
    assert_eq!(table.get_run(100), Some((58..=127, &letters)));
    assert_eq!((table.interval_count(), depth(table.interval_count())), (3, 2));

    // two switches in a row: where both take a case, the pair of blocks
    let after = IntervalMap::from([(50..=60, Block(7))]);
    let both = table.merge(&after, |first, second| Block(10 * first.0 + second.0));
    assert_eq!((both.get(50), both.get(58), both.get(49)), (Some(&Block(27)), Some(&Block(17)), Some(&Block(2))));
    for (run, block) in &both {
        println!("{run:?} => {block:?}");
    }
}
