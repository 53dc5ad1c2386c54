//! The models of docs/SOLVER.md, as they stand there.
use intervallum::proved::Global;
use intervallum::proved::interval_set::{IntervalSet, ToIntervalSet};
use intervallum::proved::ivl_rules::rules::Rule;
use intervallum::proved::ivl_search::search::rules::solutions;
use intervallum::proved::ivl_search::search::{End, Limits};
use intervallum::proved::ivl_store::store::Constraint;

/// Variables with a domain each, and rules between them.
#[derive(Default)]
struct Model {
    domains: Vec<IntervalSet<i64>>,
    rules: Vec<Rule>,
}

impl Model {
    fn variable(&mut self, runs: &[(i64, i64)]) -> usize {
        self.domains.push(runs.to_interval_set(Global).expect("memory"));
        self.domains.len() - 1
    }

    fn sum(&mut self, x: usize, y: usize, z: usize) {
        self.rules.push(Rule::Sum(Constraint { x, y, z }));
    }

    fn differ(&mut self, x: usize, y: usize) {
        self.rules.push(Rule::Differs { x, y, by: 0 });
    }

    fn at_most(&mut self, x: usize, y: usize) {
        self.rules.push(Rule::AtMost { x, y, by: 0 });
    }

    /// A variable that is x + y.
    fn plus(&mut self, x: usize, y: usize) -> usize {
        let z = self.variable(&[(0, 99)]);
        self.sum(x, y, z);
        z
    }

    /// Twice x. A sum has three different variables, so a second one is equal to x.
    fn twice(&mut self, x: usize) -> usize {
        let second = self.variable(&[(0, 99)]);
        self.rules.push(Rule::Shifted { x, y: second, by: 0 });
        self.plus(x, second)
    }

    /// A column of an addition: x + y and what is carried have this last digit. The variable that is
    /// carried to the next one.
    fn column(&mut self, x: usize, y: usize, carried: usize, digit: usize) -> usize {
        let digits = self.plus(x, y);
        let total = self.plus(digits, carried);
        let (one, nine, ten) =
            (self.variable(&[(0, 1)]), self.variable(&[(0, 0), (9, 9)]), self.variable(&[(0, 0), (10, 10)]));
        self.sum(one, nine, ten);
        self.sum(digit, ten, total);
        one
    }

    /// The values of these variables in each solution, and whether these are all.
    fn solve(&self, variables: &[usize]) -> (Vec<Vec<i64>>, bool) {
        let limits = Limits { solutions: 1_000, nodes: 100_000 };
        let found = solutions(Global, &self.domains, &self.rules, limits).expect("memory");
        let values = |point: &[i64]| variables.iter().map(|i| point[*i]).collect();
        (found.points.iter().map(|point| values(point)).collect(), found.end == End::All)
    }
}

#[test]
fn send_and_more_are_money() {
    let mut model = Model::default();
    let letters: Vec<usize> = "sendmory".chars().map(|_| model.variable(&[(0, 9)])).collect();
    let [s, e, n, d, m, o, r, y] = letters[..] else { unreachable!() };
    for (i, x) in letters.iter().enumerate() {
        for y in &letters[..i] {
            model.differ(*x, *y);
        }
    }
    let (zero, one) = (model.variable(&[(0, 0)]), model.variable(&[(1, 1)]));
    model.at_most(one, s);
    model.at_most(one, m);
    let tens = model.column(d, e, zero, y);
    let hundreds = model.column(n, r, tens, e);
    let thousands = model.column(e, o, hundreds, n);
    let last = model.column(s, m, thousands, o);
    model.sum(last, zero, m);
    // 9567 + 1085 = 10652, and nothing else
    assert_eq!(model.solve(&letters), (vec![vec![9, 5, 6, 7, 1, 0, 8, 2]], true));
}

#[test]
fn eight_queens() {
    let mut model = Model::default();
    let queens: Vec<usize> = (0..8).map(|_| model.variable(&[(0, 7)])).collect();
    for y in 0..8 {
        for x in 0..y {
            let apart = (y - x) as i64;
            model.rules.extend([0, apart, -apart].map(|by| Rule::Differs { x, y, by }));
        }
    }
    assert_eq!(model.solve(&queens).0.len(), 92);
}

#[test]
fn twice_a_number() {
    let mut model = Model::default();
    let x = model.variable(&[(1, 2), (40, 60)]);
    let double = model.twice(x);
    model.at_most(double, x);
    assert_eq!(model.solve(&[x]), (vec![], true));
    let mut model = Model::default();
    let x = model.variable(&[(1, 2), (49, 60)]);
    let double = model.twice(x);
    assert_eq!(model.solve(&[x, double]), (vec![vec![1, 2], vec![2, 4], vec![49, 98]], true));
}

#[test]
fn meetings_have_rooms() {
    // from when to when, and how many come
    let meetings = [(9, 11, 4), (10, 12, 8), (11, 13, 4), (12, 14, 12), (9, 14, 20)];
    // the rooms 1, 2 and 3 have so many seats
    let seats = [6, 12, 20];
    let mut model = Model::default();
    let mut rooms = Vec::new();
    for (start, end, people) in meetings {
        let fits: Vec<(i64, i64)> =
            (1..).zip(seats).filter(|(_, seats)| people <= *seats).map(|(room, _)| (room, room)).collect();
        let room = model.variable(&fits);
        for ((other_start, other_end, _), other) in meetings.iter().zip(&rooms) {
            if start < *other_end && *other_start < end {
                model.differ(room, *other);
            }
        }
        rooms.push(room);
    }
    assert_eq!(model.solve(&rooms), (vec![vec![1, 2, 1, 2, 3]], true));
}
