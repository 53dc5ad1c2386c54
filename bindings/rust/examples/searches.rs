//! Times the search for all solutions of puzzles, and writes them as lines for other solvers.
//!
//! `cargo run --release --example searches` prints of each small puzzle its variables, rules and solutions. With the arguments
//! `time SECONDS [PUZZLE]..` it adds the fewest nodes that suffice, and the milliseconds of `count`, the least of as many calls as
//! fit in so many seconds; a PUZZLE is one of this program's, all by default, or a file of such lines. `lines PUZZLE` prints one:
//! `domain l u l u ..` for each variable in order, then `sum x y z` (x + y = z), `shifted x k y` (x + k = y), `atmost x k y`
//! (x + k <= y) and `differs x k y` (x + k != y).
use intervallum::proved::Global;
use intervallum::proved::interval_set::{IntervalSet, ToIntervalSet};
use intervallum::proved::ivl_rules::rules::Rule;
use intervallum::proved::ivl_search::search::rules::{all_different, count};
use intervallum::proved::ivl_search::search::{End, Limits};
use intervallum::proved::ivl_store::store::Constraint;
use std::fmt::{self, Display, Formatter};
use std::hint::black_box;
use std::time::{Duration, Instant};

const PUZZLES: [&str; 13] = [
    "queens6",
    "queens8",
    "queens9",
    "magic3",
    "sendmore",
    "golomb5",
    "golomb6",
    "langford4",
    "langford8",
    "coins50",
    "queens8_by_rules",
    "queens9_by_rules",
    "sendmore_by_rules",
];

#[derive(Default)]
pub struct Model {
    domains: Vec<Vec<(i64, i64)>>,
    rules: Vec<Rule>,
}

impl Model {
    fn variable(&mut self, runs: &[(i64, i64)]) -> usize {
        self.domains.push(runs.to_vec());
        self.domains.len() - 1
    }

    fn variables(&mut self, number: usize, lower: i64, upper: i64) -> Vec<usize> {
        (0..number).map(|_| self.variable(&[(lower, upper)])).collect()
    }

    fn sum(&mut self, x: usize, y: usize, z: usize) {
        self.rules.push(Rule::Sum(Constraint { x, y, z }));
    }

    /// Each of some variables differs from each other: how far two are apart is a variable that is not 0.
    fn different_by_sums(&mut self, variables: &[usize], greatest: i64) {
        for (i, &x) in variables.iter().enumerate() {
            for &y in &variables[i + 1..] {
                let apart = self.variable(&[(-greatest, -1), (1, greatest)]);
                self.sum(x, apart, y);
            }
        }
    }

    /// The same by rules of two variables.
    fn different(&mut self, variables: &[usize]) {
        for (i, &x) in variables.iter().enumerate() {
            self.rules.extend(variables[i + 1..].iter().map(|&y| Rule::Differs { x, y, by: 0 }));
        }
    }

    fn solutions(&self, domains: &[IntervalSet<i64>], limits: Limits) -> (usize, End) {
        count(Global, black_box(domains), &self.rules, limits).expect("each rule names variables of the model")
    }

    fn sets(&self) -> Vec<IntervalSet<i64>> {
        self.domains.iter().map(|runs| runs.as_slice().to_interval_set(Global).expect("memory suffices")).collect()
    }
}

/// Queens that do not attack each other: no two in one row, nor as far apart in rows as in columns.
fn queens_by_sums(size: i64) -> Model {
    let mut model = Model::default();
    let rows = model.variables(size as usize, 1, size);
    for (i, &x) in rows.iter().enumerate() {
        for &y in &rows[i + 1..] {
            let (columns, greatest) = ((y - x) as i64, size - 1);
            let mut apart: Vec<(i64, i64)> = vec![(-greatest, -columns - 1), (1 - columns, -1), (1, columns - 1)];
            apart.push((columns + 1, greatest));
            apart.retain(|run| run.0 <= run.1);
            let apart = model.variable(&apart);
            model.sum(x, apart, y);
        }
    }
    model
}

fn queens_by_rules(size: i64) -> Model {
    let mut model = Model::default();
    let rows = model.variables(size as usize, 0, size - 1);
    model.different(&rows);
    for y in rows {
        for x in 0..y {
            let columns = (y - x) as i64;
            model.rules.extend([Rule::Differs { x, y, by: columns }, Rule::Differs { x, y, by: -columns }]);
        }
    }
    model
}

/// Marks from 0 to a length, of which no two are as far apart as two others.
fn golomb(marks: usize, length: i64) -> Model {
    let mut model = Model::default();
    let first = model.variable(&[(0, 0)]);
    let between = model.variables(marks - 2, 1, length);
    let all = [vec![first], between, vec![model.variable(&[(length, length)])]].concat();
    let mut differences = Vec::new();
    for (i, &x) in all.iter().enumerate() {
        for &y in &all[i + 1..] {
            let difference = model.variable(&[(1, length)]);
            differences.push((x, difference, y));
        }
    }
    differences.iter().for_each(|&(x, difference, y)| model.sum(x, difference, y));
    let differences: Vec<usize> = differences.iter().map(|difference| difference.1).collect();
    model.different_by_sums(&differences, length);
    model
}

/// Two of each number up to the greatest in a row, with as many numbers between them as it says.
fn langford(greatest: i64) -> Model {
    let mut model = Model::default();
    let firsts = model.variables(greatest as usize, 1, 2 * greatest);
    let mut seconds = Vec::new();
    for (number, &first) in (1..).zip(&firsts) {
        let second = model.variable(&[(1, 2 * greatest)]);
        let distance = model.variable(&[(number + 1, number + 1)]);
        model.sum(first, distance, second);
        seconds.push(second);
    }
    model.different_by_sums(&[firsts, seconds].concat(), 2 * greatest);
    model
}

/// SEND + MORE = MONEY: each letter is another digit, and no number begins with 0.
fn send_more_by_rules() -> Model {
    let mut model = Model::default();
    let [s, m, e, n, d, o, r, y] = [1, 1, 0, 0, 0, 0, 0, 0].map(|least| model.variable(&[(least, 9)]));
    model.different(&[s, m, e, n, d, o, r, y]);
    let mut carry = None;
    for (a, b, digit, next) in [(d, e, y, None), (n, r, e, None), (e, o, n, None), (s, m, o, Some(m))] {
        let digits = model.variable(&[(0, 18)]);
        model.sum(a, b, digits);
        let total = match carry {
            None => digits,
            Some(carry) => {
                let total = model.variable(&[(0, 19)]);
                model.sum(digits, carry, total);
                total
            }
        };
        // of ten, one is carried: ten is that one and nine
        let ten = model.variable(&[(0, 0), (10, 10)]);
        let nine = model.variable(&[(0, 0), (9, 9)]);
        let one = next.unwrap_or_else(|| model.variable(&[(0, 1)]));
        model.sum(digit, ten, total);
        model.sum(one, nine, ten);
        carry = Some(one);
    }
    model
}

/// Reads the lines of a model; none if a bound is outside the limits, or a rule names a variable twice.
pub fn read(text: &str) -> Option<Model> {
    let mut model = Model::default();
    for line in text.lines().filter(|line| !line.trim().is_empty()) {
        let (kind, numbers) = line.trim().split_once(' ').unwrap_or((line.trim(), ""));
        let numbers: Vec<i64> = numbers.split_whitespace().map(str::parse).collect::<Result<_, _>>().ok()?;
        let index = |i: usize| usize::try_from(*numbers.get(i)?).ok();
        if kind == "domain" {
            model.domains.push(numbers.chunks(2).map(|run| Some((run[0], *run.get(1)?))).collect::<Option<_>>()?);
            continue;
        }
        let (x, by, y) = (index(0)?, *numbers.get(1)?, index(2)?);
        model.rules.push(match kind {
            "sum" => Rule::Sum(Constraint { x, y: index(1)?, z: y }),
            "shifted" => Rule::Shifted { x, y, by },
            "atmost" => Rule::AtMost { x, y, by },
            "differs" => Rule::Differs { x, y, by },
            _ => return None,
        });
    }
    let are_in_range = model.domains.iter().all(|runs| runs.as_slice().in_range());
    (are_in_range && all_different(&model.rules)).then_some(model)
}

impl Display for Model {
    fn fmt(&self, f: &mut Formatter<'_>) -> fmt::Result {
        for runs in &self.domains {
            let bounds: Vec<String> = runs.iter().map(|(lower, upper)| format!(" {lower} {upper}")).collect();
            writeln!(f, "domain{}", bounds.concat())?;
        }
        for rule in &self.rules {
            match rule {
                Rule::Sum(c) => writeln!(f, "sum {} {} {}", c.x, c.y, c.z),
                Rule::Shifted { x, y, by } => writeln!(f, "shifted {x} {by} {y}"),
                Rule::AtMost { x, y, by } => writeln!(f, "atmost {x} {by} {y}"),
                Rule::Differs { x, y, by } => writeln!(f, "differs {x} {by} {y}"),
            }?;
        }
        Ok(())
    }
}

/// A puzzle of this name, or in this file.
pub fn puzzle(name: &str) -> Option<Model> {
    let text = match name {
        "queens6" => return Some(queens_by_sums(6)),
        "queens8" => return Some(queens_by_sums(8)),
        "queens9" => return Some(queens_by_sums(9)),
        "golomb5" => return Some(golomb(5, 11)),
        "golomb6" => return Some(golomb(6, 17)),
        "langford4" => return Some(langford(4)),
        "langford8" => return Some(langford(8)),
        "queens8_by_rules" => return Some(queens_by_rules(8)),
        "queens9_by_rules" => return Some(queens_by_rules(9)),
        "sendmore_by_rules" => return Some(send_more_by_rules()),
        "magic3" => include_str!("../tests/puzzles/magic3.txt"),
        "sendmore" => include_str!("../tests/puzzles/sendmore.txt"),
        "coins50" => include_str!("../tests/puzzles/coins50.txt"),
        file => &std::fs::read_to_string(file).ok()?,
    };
    read(text)
}

const AMPLE: Limits = Limits { solutions: usize::MAX, nodes: u64::MAX };

/// The fewest nodes with which a search finds all solutions.
fn fewest_nodes(model: &Model, domains: &[IntervalSet<i64>]) -> u64 {
    let is_enough = |nodes| model.solutions(domains, Limits { nodes, ..AMPLE }).1 == End::All;
    let (mut few, mut enough) = (0, 1);
    while !is_enough(enough) {
        (few, enough) = (enough, enough * 2);
    }
    while enough - few > 1 {
        let middle = few + (enough - few) / 2;
        *(if is_enough(middle) { &mut enough } else { &mut few }) = middle;
    }
    enough
}

/// The milliseconds of the shortest of as many calls as fit in so much time.
fn milliseconds(model: &Model, domains: &[IntervalSet<i64>], time: Duration) -> f64 {
    let (begun, mut least) = (Instant::now(), Duration::MAX);
    while least == Duration::MAX || begun.elapsed() < time {
        let call = Instant::now();
        black_box(model.solutions(domains, AMPLE));
        least = least.min(call.elapsed());
    }
    least.as_secs_f64() * 1e3
}

fn main() {
    let arguments: Vec<String> = std::env::args().skip(1).collect();
    let arguments: Vec<&str> = arguments.iter().map(String::as_str).collect();
    let found = |name: &str| puzzle(name).unwrap_or_else(|| panic!("{name} is neither a puzzle nor a file of lines"));
    let (time, names) = match arguments[..] {
        [] => (None, vec!["queens6", "magic3", "golomb5", "langford4", "sendmore_by_rules"]),
        ["lines", name] => return print!("{}", found(name)),
        ["time", seconds, ref names @ ..] => {
            let time = Duration::from_secs_f64(seconds.parse().expect("the seconds"));
            (Some(time), if names.is_empty() { PUZZLES.to_vec() } else { names.to_vec() })
        }
        _ => panic!("the arguments are: time SECONDS [PUZZLE].., or lines PUZZLE"),
    };
    for name in names {
        let model = found(name);
        let domains = model.sets();
        let (solutions, end) = model.solutions(&domains, AMPLE);
        assert_eq!(end, End::All);
        print!("{name} {} {} {solutions}", model.domains.len(), model.rules.len());
        match time {
            None => println!(),
            Some(time) => {
                let time = milliseconds(&model, &domains, time);
                println!(" {} {time:.4}", fewest_nodes(&model, &domains));
            }
        }
    }
}
