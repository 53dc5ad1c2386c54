//! Keeps which bytes of a file have arrived, in any order and more than once, and asks for what is missing.
use intervallum::IntervalSet;
use std::ops::Range;

struct Download {
    arrived: IntervalSet<u64>,
    total: u64,
}

impl Download {
    /// Takes a block, and returns false if it brought nothing new.
    fn take(&mut self, block: Range<u64>) -> bool {
        self.arrived.insert_interval(block)
    }

    /// The first parts that are missing, none longer than `most` bytes.
    fn requests(&self, most: u64) -> impl Iterator<Item = String> {
        let gaps = self.arrived.gaps_within(0..self.total).into_runs();
        let parts = gaps.map(move |gap| (*gap.start(), (*gap.end()).min(gap.start() + most - 1)));
        parts.map(|(first, last)| format!("Range: bytes={first}-{last}"))
    }

    /// How many bytes can be played: those from the start without a gap.
    fn playable(&self) -> u64 {
        self.arrived.run_at(0).map_or(0, |run| run.end() + 1)
    }
}

pub fn main() {
    let mut film = Download { arrived: IntervalSet::empty(), total: 10_000_000_000 };
    assert!(film.take(0..4096) && film.take(8192..9000) && film.take(4096..5000));
    assert!(!film.take(100..200), "a block that was sent twice");
    assert_eq!((film.playable(), film.arrived.len()), (5000, 5808));
    let wanted: Vec<String> = film.requests(1_000_000).collect();
    assert_eq!(wanted, ["Range: bytes=5000-8191", "Range: bytes=9000-1008999"]);
    assert_eq!(film.arrived.runs().map(|run| run.end() - run.start() + 1).max(), Some(5000));
    println!("{}% of {} bytes have arrived: {}", film.arrived.size() * 100 / film.total, film.total, film.arrived);
}
