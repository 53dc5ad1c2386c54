//! An allow list and a deny list of IPv4 networks, and the networks that a set of addresses is made of.
use intervallum::IntervalSet;
use std::net::Ipv4Addr;
use std::ops::RangeInclusive;

/// The addresses of a network, as in `10.0.0.0/8`.
fn network(text: &str) -> Option<RangeInclusive<Ipv4Addr>> {
    let (address, bits) = text.split_once('/')?;
    let (first, bits) =
        (u32::from(address.parse::<Ipv4Addr>().ok()?), bits.parse::<u32>().ok().filter(|bits| *bits <= 32)?);
    let inside = u32::MAX.checked_shr(bits).unwrap_or(0);
    Some(Ipv4Addr::from(first & !inside)..=Ipv4Addr::from(first | inside))
}

/// The networks that have just the addresses of a run, from the lowest address on.
fn networks(run: RangeInclusive<Ipv4Addr>) -> Vec<String> {
    let (mut first, last) = (u64::from(u32::from(*run.start())), u64::from(u32::from(*run.end())));
    let mut all = Vec::new();
    while first <= last {
        let (aligned, fitting) = (first.trailing_zeros().min(32), (last - first + 1).ilog2());
        let free_bits = aligned.min(fitting);
        all.push(format!("{}/{}", Ipv4Addr::from(u32::try_from(first).unwrap()), 32 - free_bits));
        first += 1 << free_bits;
    }
    all
}

pub fn main() {
    let list = |networks: &[&str]| networks.iter().filter_map(|text| network(text)).collect::<IntervalSet<_>>();
    let allow = list(&["10.0.0.0/8", "192.168.0.0/16", "0.0.0.0/33"]);
    let deny = list(&["10.1.0.0/16", "10.0.255.0/24"]);
    let open = allow.difference(&deny);
    let address = |text: &str| text.parse::<Ipv4Addr>().unwrap();
    assert!(
        open.contains(address("10.0.0.1"))
            && !open.contains(address("10.1.2.3"))
            && !open.contains(Ipv4Addr::BROADCAST)
    );
    assert_eq!(open.size(), (1 << 24) + (1 << 16) - (1 << 16) - (1 << 8));
    assert_eq!((!&open).size() + open.size(), 1 << 32, "0.0.0.0/0");
    let written: Vec<String> = open.runs_within(address("10.0.0.0")..address("10.4.0.0")).flat_map(networks).collect();
    assert_eq!(written[..3], ["10.0.0.0/17", "10.0.128.0/18", "10.0.192.0/19"]);
    assert_eq!(
        written.iter().filter_map(|text| network(text)).collect::<IntervalSet<_>>(),
        open.within(network("10.0.0.0/8").unwrap())
    );
    println!("open: {open}");
}
