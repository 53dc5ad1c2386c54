//! Ports with owners, and three tasks one after another. The same program stands in C, C++ and Python, and writes the same text.
use intervallum::solve::{Limits, Model};
use intervallum::{IntervalMap, PagedSet};

pub fn main() {
    // the free ports in pages, and who holds the others
    let mut free = PagedSet::from([(1024u32, 65_535)]);
    let mut owners = IntervalMap::new();
    for (name, count) in [("anna", 8u32), ("bela", 4), ("cleo", 2)] {
        let ports = free.take_first_fit(count).expect("there are enough ports");
        owners.insert(ports, name);
    }
    // bela gives two back, and cleo gets one of anna's
    owners.remove(1034..=1035);
    free.insert_interval(1034..=1035);
    owners.insert(1031, "cleo");
    for (ports, name) in &owners {
        println!("{}..{} {name}", ports.start(), ports.end());
    }
    println!("{} ports are free, in {} runs", free.size(), free.interval_count());
    let room = owners.first_fit(1024..=2000, 5u32).expect("there is room");
    println!("the lowest 5 without an owner: {}..{}", room.start(), room.end());

    // a copy of 3 hours, then a check of 2; a transfer of 4, from hour 5 on; one at a time, and over as soon as they can be
    let mut day = Model::new();
    let [copy, check, transfer] = [0, 0, 5].map(|from| day.variable(from..=20));
    let end = day.variable(0..=24);
    day.no_overlap(&[(copy, 3), (check, 2), (transfer, 4)]);
    day.at_most(copy, 3, check);
    day.at_most(check, 2, end);
    day.at_most(transfer, 4, end);
    let best = day.minimize(end, Limits::default()).into_solution().expect("there is a plan");
    println!("copy at {}, check at {}, transfer at {}, over at {}", best[copy], best[check], best[transfer], best[end]);
    day.restrict(end, ..=12);
    println!("{} plans are over by 12", day.count(Limits::default()).0);
    day.restrict(end, ..=8);
    println!("over by 8: {}", if day.count(Limits::default()).0 > 0 { "yes" } else { "no" });
}
