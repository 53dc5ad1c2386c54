//! Hands out ports and process ids: the lowest that are free, and the next after the last that was handed out.
use intervallum::{Full, IntervalSet};

/// The ids from 2 to 32,767, of which the next one is handed out, as Linux does.
struct Pids {
    free: IntervalSet<u32>,
    last: u32,
}

impl Pids {
    fn take(&mut self) -> Option<u32> {
        let pid = self.free.next_from(self.last + 1).or_else(|| self.free.first())?;
        self.free.remove(pid);
        self.last = pid;
        Some(pid)
    }

    /// Returns false if the id was free, as it is when a caller gives it back twice.
    fn give(&mut self, pid: u32) -> bool {
        self.free.insert(pid)
    }
}

pub fn main() {
    // every port, 65535 too, is a `Full<u16>`
    let mut free = IntervalSet::from(Full(1024u16)..);
    assert_eq!(free.take_first_fit(8), Some(Full(1024)..=Full(1031)));
    assert!(free.remove_interval(Full(8000)..=Full(8099)), "a range of one's choice");
    assert!(!free.includes(Full(8090)..Full(8110)) && free.overlaps(Full(8090)..Full(8110)));
    assert!(
        free.insert_interval(Full(1024)..=Full(1027)) && !free.insert_interval(Full(1024)..=Full(1025)),
        "given back twice"
    );
    let port: u16 = "65535".parse().unwrap();
    assert!(free.contains(port.into()) && free.remove(port.into()));
    println!("free ports: {free}");

    let reserved: IntervalSet<u32> = "{[5000..5099][6000..6000]}".parse().unwrap();
    let mut pids = Pids { free: IntervalSet::from(2..=32_767).difference(&reserved), last: 32_765 };
    assert_eq!([pids.take(), pids.take(), pids.take()], [Some(32_766), Some(32_767), Some(2)]);
    assert!(pids.give(32_766) && !pids.give(32_766));
    println!("{} free ids; the next after {} is {:?}", pids.free.len(), pids.last, pids.free.next_from(pids.last));
}
