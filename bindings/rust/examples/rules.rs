//! An address list with rules: each rule holds for a network, and of two that hold for an address the later one wins.
use intervallum::{IntervalMap, IntervalSet};
use std::net::Ipv4Addr;
use std::ops::RangeInclusive;

#[derive(Clone, Copy, Debug, PartialEq, Eq)]
enum Action {
    Allow,
    Deny,
    /// At most so many requests a minute.
    Limit(u32),
}

use Action::{Allow, Deny, Limit};

/// The addresses of a network, as in `10.0.0.0/8`.
fn network(text: &str) -> Option<RangeInclusive<Ipv4Addr>> {
    let (address, bits) = text.split_once('/')?;
    let (first, bits) =
        (u32::from(address.parse::<Ipv4Addr>().ok()?), bits.parse::<u32>().ok().filter(|bits| *bits <= 32)?);
    let inside = u32::MAX.checked_shr(bits).unwrap_or(0);
    Some(Ipv4Addr::from(first & !inside)..=Ipv4Addr::from(first | inside))
}

pub fn main() {
    let rules = [
        ("0.0.0.0/0", Deny),
        ("10.0.0.0/8", Allow),
        ("10.1.0.0/16", Limit(60)),
        ("10.1.2.0/24", Allow),
        ("10.1.3.0/24", Allow),
        ("10.1.4.7/32", Deny),
    ];
    let mut table: IntervalMap<Ipv4Addr, Action> =
        rules.into_iter().filter_map(|(text, action)| Some((network(text)?, action))).collect();
    let address = |text: &str| text.parse::<Ipv4Addr>().unwrap();
    let asked = ["9.9.9.9", "10.0.0.1", "10.1.0.1", "10.1.2.3", "10.1.4.7", "10.1.4.8"];
    let answers = asked.map(|text| *table.get(address(text)).unwrap());
    assert_eq!(answers, [Deny, Allow, Limit(60), Allow, Deny, Limit(60)]);

    // rules that say the same of networks side by side are one entry
    assert_eq!(table.get_run(address("10.1.2.9")).unwrap().0, address("10.1.2.0")..=address("10.1.3.255"));
    let open: IntervalSet<Ipv4Addr> = table.numbers_with(|action| *action != Deny);
    assert_eq!(open.size(), (1 << 24) - 1);

    // a rule that may not change what others say
    let fault = table.insert_if_free(network("10.1.4.0/24").unwrap(), Allow).unwrap_err();
    assert_eq!(*fault.1, Limit(60));
    // half as many requests, wherever there is a limit
    table.update(.., |action| if let Limit(count) = action { Limit(count / 2) } else { *action });
    assert_eq!(table.get(address("10.1.4.8")), Some(&Limit(30)));
    for (run, action) in &table {
        println!("{} to {}: {action:?}", run.start(), run.end());
    }
}
