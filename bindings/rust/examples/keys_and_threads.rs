//! Sets as keys of maps, in order, and shared by threads.
use intervallum::IntervalSet;
use std::collections::{BTreeMap, HashMap};
use std::sync::{Arc, Mutex, mpsc};
use std::thread;

pub fn main() {
    // lines of a program, by the set of registers that are live in each
    let live = [(1, "[0..3]"), (2, "{[0..1][5..5]}"), (3, "[0..3]"), (4, "{}")];
    let mut lines: HashMap<IntervalSet<u8>, Vec<u32>> = HashMap::new();
    let mut sorted: BTreeMap<IntervalSet<u8>, u32> = BTreeMap::new();
    for (line, text) in live {
        let registers: IntervalSet<u8> = text.parse().unwrap();
        lines.entry(registers.clone()).or_default().push(line);
        *sorted.entry(registers).or_default() += 1;
    }
    assert_eq!(lines[&IntervalSet::new(0, 3)], [1, 3]);
    // by their members, one after another, as lists and `BTreeSet`s are
    assert_eq!(sorted.keys().map(ToString::to_string).collect::<Vec<_>>(), ["{}", "[0..3]", "{[0..1][5..5]}"]);

    // four workers take jobs from one set, and no job twice
    let jobs = Arc::new(Mutex::new(IntervalSet::from(0..1000u32)));
    let (send, done) = mpsc::channel();
    for _ in 0..4 {
        let (jobs, send) = (Arc::clone(&jobs), send.clone());
        thread::spawn(move || {
            while let Some(job) = { jobs.lock().unwrap().pop_first() } {
                send.send(job).unwrap();
            }
        });
    }
    drop(send);
    let mut seen = IntervalSet::empty();
    assert!(done.iter().all(|job| seen.insert(job)) && seen == IntervalSet::from(0..1000));

    // a set that nobody changes needs no lock
    let primes: Arc<IntervalSet<u32>> = Arc::new((2..100).filter(|n| (2..*n).all(|d| n % d > 0)).collect());
    let halves = [0..50, 50..100].map(|half| {
        let primes = Arc::clone(&primes);
        thread::spawn(move || primes.size_within(half))
    });
    assert_eq!(halves.map(|half| half.join().unwrap()), [15, 10]);
    println!("{} sets of registers, {} jobs, {} primes", sorted.len(), seen.len(), primes.len());
}
