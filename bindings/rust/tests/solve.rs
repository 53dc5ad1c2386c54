//! Models of the root beside all points: rules of each kind, sums and tasks of any number, signed and unsigned, with domains that have
//! holes; limits, and what a wrong call is told.
use intervallum::proved::width::Width;
use intervallum::solve::{End, Limits, Model, Variable};
use intervallum::{Full, IntervalSet, PagedSet};
use std::panic::{self, AssertUnwindSafe};

/// Numbers in no order, each time the same (xorshift).
struct Random(u64);

impl Random {
    fn below(&mut self, count: u64) -> u64 {
        self.0 ^= self.0 << 13;
        self.0 ^= self.0 >> 7;
        self.0 ^= self.0 << 17;
        self.0 % count
    }
}

/// A rule as brute force reads it: the numbers of all variables, and whether it holds.
type Test = Box<dyn Fn(&[i128]) -> bool>;

/// A model, and what its calls asked for.
struct Tried<T: Width> {
    model: Model<T>,
    variables: Vec<Variable>,
    tests: Vec<Test>,
}

impl<T: Width + std::fmt::Debug> Tried<T> {
    /// Variables with domains of some of the numbers from `least` on.
    fn of(random: &mut Random, least: i128) -> Self {
        let mut model = Model::new();
        let number = |random: &mut Random| T::from_number(least + i128::from(random.below(6))).unwrap();
        let domains = (0..2 + random.below(3)).map(|_| (0..1 + random.below(5)).map(|_| number(random)).collect());
        let domains: Vec<IntervalSet<T>> = domains.collect();
        let variables = domains.iter().map(|domain| model.variable(domain)).collect();
        Tried { model, variables, tests: Vec::new() }
    }

    /// Two or more of the variables, each once.
    fn some(&self, random: &mut Random) -> Vec<usize> {
        let mut places: Vec<usize> = (0..self.variables.len()).collect();
        for i in 0..places.len() {
            places.swap(i, random.below(i as u64 + 1) as usize);
        }
        places.truncate(2 + random.below(places.len() as u64 - 1) as usize);
        places
    }

    fn add_rule(&mut self, random: &mut Random) {
        let places = self.some(random);
        let (x, y) = (places[0], places[1]);
        let (v, w) = (self.variables[x], self.variables[y]);
        let by = random.below(9) as i64 - 4;
        let of = |places: &[usize]| places.iter().map(|place| self.variables[*place]).collect::<Vec<_>>();
        let test: Test = match random.below(6) {
            0 => {
                self.model.at_most(v, by, w);
                Box::new(move |p| p[x] + i128::from(by) <= p[y])
            }
            1 => {
                self.model.equals(v, by, w);
                Box::new(move |p| p[x] + i128::from(by) == p[y])
            }
            2 => {
                self.model.differs(v, by, w);
                Box::new(move |p| p[x] + i128::from(by) != p[y])
            }
            3 => {
                self.model.all_different(&of(&places));
                Box::new(move |p| places.iter().enumerate().all(|(i, a)| places[..i].iter().all(|b| p[*a] != p[*b])))
            }
            4 => {
                let (total, terms) = (v, of(&places[1..]));
                self.model.sum(&terms, total);
                Box::new(move |p| places[1..].iter().map(|place| p[*place]).sum::<i128>() == p[places[0]])
            }
            _ => {
                let lengths: Vec<u64> = places.iter().map(|_| random.below(4)).collect();
                let tasks: Vec<_> = of(&places).into_iter().zip(lengths.iter().copied()).collect();
                self.model.no_overlap(&tasks);
                let over = move |p: &[i128], i: usize, j: usize| p[places[i]] + i128::from(lengths[i]) <= p[places[j]];
                let count = tasks.len();
                Box::new(move |p| (0..count).all(|i| (0..i).all(|j| over(p, i, j) || over(p, j, i))))
            }
        };
        self.tests.push(test);
    }

    /// All points that pass the tests, in ascending order.
    fn by_force(&self) -> Vec<Vec<i128>> {
        let mut points = vec![Vec::new()];
        for variable in &self.variables {
            let numbers: Vec<i128> = self.model.domain(*variable).iter().map(Width::number).collect();
            let longer = |point: &Vec<i128>| numbers.iter().map(|n| [&point[..], &[*n]].concat()).collect::<Vec<_>>();
            points = points.iter().flat_map(longer).collect();
        }
        points.retain(|point| self.tests.iter().all(|test| test(point)));
        points
    }
}

/// Random models whose numbers are of one type, from `least` on.
fn models_of<T: Width + std::fmt::Debug>(least: i128, seed: u64) {
    let mut random = Random(seed);
    let mut solved = 0;
    for round in 0..if cfg!(debug_assertions) { 300 } else { 3000 } {
        let mut tried = Tried::<T>::of(&mut random, least);
        for _ in 0..1 + random.below(3) {
            tried.add_rule(&mut random);
        }
        let wanted = tried.by_force();
        let found = tried.model.solutions(Limits::default());
        let mut points: Vec<Vec<i128>> = found
            .iter()
            .map(|solution| tried.variables.iter().map(|variable| solution[*variable].number()).collect())
            .collect();
        points.sort();
        assert_eq!((points, found.end()), (wanted.clone(), End::All), "round {round}: {:?}", tried.model);
        assert_eq!(tried.model.count(Limits::default()), (wanted.len(), End::All));
        let at = random.below(tried.variables.len() as u64) as usize;
        let number = |best: intervallum::solve::Best<T>| best.solution().map(|s| s[tried.variables[at]].number());
        let (least, greatest) = (wanted.iter().map(|p| p[at]).min(), wanted.iter().map(|p| p[at]).max());
        assert_eq!(number(tried.model.minimize(tried.variables[at], Limits::default())), least);
        assert_eq!(number(tried.model.maximize(tried.variables[at], Limits::default())), greatest);
        solved += usize::from(!wanted.is_empty());
    }
    assert!(solved > 20, "{solved}");
}

#[test]
fn models_beside_all_points() {
    models_of::<i64>(-3, 1);
    models_of::<i8>(-2, 2);
    models_of::<u8>(0, 3);
    models_of::<u64>(7, 4);
    models_of::<Full<u16>>(0, 5);
    models_of::<char>(i128::from(u32::from('a')), 6);
}

#[test]
fn limits_end_a_search() {
    let mut model = Model::new();
    let seven = model.variables(7, 1..=7u8);
    model.all_different(&seven);
    let few = model.solutions(Limits::default().solutions(5));
    assert_eq!((few.len(), few.end()), (5, End::Solutions));
    assert_eq!(model.count(Limits::default()), (5_040, End::All));
    assert_eq!(model.count(Limits::default().nodes(100)).1, End::Nodes);
    assert_eq!(model.minimize(seven[0], Limits::default().nodes(0)).into_solution(), None);
    model.restrict(seven[3], PagedSet::from(10..=20));
    assert_eq!(model.count(Limits::default()), (0, End::All));
}

#[test]
fn sums_of_none_and_one() {
    let mut model = Model::new();
    let (x, y, z) = (model.variable(-5..=5), model.variable(-3..=9), model.variable(-1..=1i32));
    model.sum(&[], x);
    model.sum(&[z], y);
    let mut found: Vec<_> = model.solutions(Limits::default()).iter().map(|s| (s[x], s[y], s[z])).collect();
    found.sort();
    assert_eq!(found, [(0, -1, -1), (0, 0, 0), (0, 1, 1)]);
    // the sums of the first of many terms are above the limits, but the total is not
    let mut many = Model::new();
    let cells = many.variables(30, 0..=9u8);
    let total = many.variable(1);
    many.sum(&cells, total);
    assert_eq!(many.count(Limits::default()), (30, End::All));
}

/// The message, the file and the line of the panic of a call.
fn told(call: impl FnOnce()) -> (String, String, u32) {
    use std::sync::{Arc, Mutex};
    let place = Arc::new(Mutex::new(None));
    let hook = panic::take_hook();
    let seen = Arc::clone(&place);
    panic::set_hook(Box::new(move |info| {
        *seen.lock().unwrap() = info.location().map(|at| (at.file().to_owned(), at.line()));
    }));
    let fault = panic::catch_unwind(AssertUnwindSafe(call));
    panic::set_hook(hook);
    let fault = fault.expect_err("the call panics");
    let (file, line) = place.lock().unwrap().take().unwrap();
    (*fault.downcast::<String>().unwrap(), file, line)
}

#[test]
fn a_wrong_call_is_told_at_its_line() {
    let mut model = Model::new();
    let (x, y) = (model.variable(0..=9u8), model.variable(0..=250));
    let mut other = Model::new();
    let far = other.variables(9, 1..=2u8)[8];
    let mut all = Model::new();
    let (a, b) = (all.variable(..), all.variable(0..=127i8));
    let c = all.variable(..);
    let different = "the variables of a rule must be different";
    let known = "a variable must be one of the model";
    let base = model.clone();
    // a search changes nothing
    macro_rules! asks {
        ($($of:ident.$call:ident($($argument:expr),*) => $text:expr;)*) => {$(
            #[allow(unused_mut)]
            let mut model = $of.clone();
            let (message, file, _) = told(|| _ = model.$call($($argument),*));
            assert_eq!((message, file.as_str()), (format!("Model::{}", $text), file!()));
        )*};
    }
    asks! {
        base.variable(0..=255) => "variable(0..=255): the numbers must be from 0 to 254";
        base.variables(3, 255) => "variables(255): the numbers must be from 0 to 254";
        base.at_most(x, 1, x) => format!("at_most(.. Variable(0), Variable(0) ..): {different}");
        base.equals(x, 1, far) => format!("equals(.. Variable(8) ..): {known}");
        base.differs(y, 1, y) => format!("differs(.. Variable(1), Variable(1) ..): {different}");
        base.all_different(&[x, y, x]) => format!("all_different(.. Variable(0), Variable(0) ..): {different}");
        base.sum(&[x, y], y) => format!("sum(.., Variable(1)): {different}");
        base.sum(&[x, x], y) => format!("sum(.., Variable(1)): {different}");
        base.sum(&[x, far], y) => format!("sum(.. Variable(8) ..): {known}");
        base.no_overlap(&[(x, 1), (x, 1)]) => format!("no_overlap(.. Variable(0), Variable(0) ..): {different}");
        base.no_overlap(&[(x, 1), (y, 1)]) => "no_overlap(.. Variable(0), Variable(1) ..): the differences of the beginnings must be from 0 to 254";
        base.restrict(far, 5) => format!("restrict(.. Variable(8) ..): {known}");
        base.minimize(far, Limits::default()) => format!("minimize(.. Variable(8) ..): {known}");
        all.no_overlap(&[(a, 1), (b, 1)]) => "no_overlap(.. Variable(0), Variable(1) ..): the differences of the beginnings must be from -127 to 127";
    }
    // of terms of both signs, the sum of the first two
    let total = all.variable(0);
    let (message, file, line) = told(|| all.sum(&[a, c, b], total));
    assert_eq!((file.as_str(), line), (file!(), line!() - 1));
    assert_eq!(message, "Model::sum(.., Variable(3)): the sums must be from -127 to 127");
}
