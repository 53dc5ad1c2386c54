//! Networks: variables and rules added one by one, and narrowing within a budget.
use super::sum;
use crate::compare::{check_printed, made, set_of};
use intervallum::proved::Global;
use intervallum::proved::ivl_network::network::{Network, Settled};
use intervallum::proved::ivl_rules::rules::Rule;
use intervallum::proved::ivl_store::store::{Constraint, StoreFault};
use intervallum::proved::width::Width;
use std::fmt::Display;

/// A network whose variables have these domains.
fn network_of<B: Width>(domains: &[&[(B, B)]]) -> Network<B> {
    let mut network = Network::new(Global);
    for runs in domains {
        made(network.add_variable(set_of(runs)));
    }
    network
}

/// The rule is required, and the answer is as it is wanted.
fn check_required<B: Width>(network: &mut Network<B>, rule: Rule, answer: Result<(), StoreFault>) {
    assert!(rule.is_over_different());
    assert_eq!(network.require(rule), answer);
}

/// The rules are required one by one.
fn require_all<B: Width>(network: &mut Network<B>, rules: &[Rule]) {
    for rule in rules {
        check_required(network, *rule, Ok(()));
    }
}

// A budget, the answer to it, and the texts of the domains that are left.
type Row = (u64, Settled, &'static [&'static str]);

/// So many narrowings are answered as it is wanted, and leave domains of these texts.
fn check_settled<B: Width + Display>(network: &mut Network<B>, &(budget, answer, texts): &Row) {
    assert_eq!(network.settle(budget), Ok(answer));
    assert_eq!(network.domains().len(), texts.len());
    for (domain, text) in network.domains().iter().zip(texts) {
        check_printed(domain, text);
    }
}

const THREE_DOMAINS: [&[(i32, i32)]; 3] = [&[(0, 10)], &[(3, 4)], &[(5, 6)]];

// One after the other: each goes on where the one before stopped.
const ONE_SUM: [Row; 4] = [
    (0, Settled::Unfinished, &["[0..10]", "[3..4]", "[5..6]"]),
    (1, Settled::All, &["[1..3]", "[3..4]", "[5..6]"]),
    (0, Settled::All, &["[1..3]", "[3..4]", "[5..6]"]),
    (9, Settled::All, &["[1..3]", "[3..4]", "[5..6]"]),
];

#[test]
fn one_sum_is_looked_at_once() {
    let mut network = network_of(&THREE_DOMAINS);
    let rule = Rule::Sum(sum([0, 1, 2]));
    require_all(&mut network, &[rule, rule]);
    assert_eq!(network.rules(), [rule].as_slice());
    for row in &ONE_SUM {
        check_settled(&mut network, row);
    }
}

// a + 1 <= b and b + 1 <= a
const A_CIRCLE: [Rule; 2] = [Rule::AtMost { x: 0, y: 1, by: 1 }, Rule::AtMost { x: 1, y: 0, by: 1 }];

// The rule that was required last is the first to narrow.
const A_MEMBER_A_NARROWING: [Row; 4] = [
    (1, Settled::Unfinished, &["[1..9]", "[0..8]"]),
    (1, Settled::Unfinished, &["[1..7]", "[2..8]"]),
    (2, Settled::Unfinished, &["[3..5]", "[4..6]"]),
    (9, Settled::All, &["{}", "{}"]),
];

#[test]
fn a_call_goes_on_where_another_stopped() {
    let mut network = network_of::<i32>(&[&[(0, 9)], &[(0, 9)]]);
    require_all(&mut network, &A_CIRCLE);
    for row in &A_MEMBER_A_NARROWING {
        assert!(!network.has_empty());
        check_settled(&mut network, row);
    }
    assert!(network.has_empty());
}

// a + b = c, c + 1 = d and c != e
const EACH_KIND: [Rule; 3] = [
    Rule::Sum(Constraint { x: 0, y: 1, z: 2 }),
    Rule::Shifted { x: 2, y: 3, by: 1 },
    Rule::Differs { x: 2, y: 4, by: 0 },
];

const EACH_KIND_NARROWED: Row = (9, Settled::All, &["[0..9]", "[0..9]", "{[0..3][5..9]}", "{[1..4][6..10]}", "[4..4]"]);

#[test]
fn a_cut_wakes_the_rules_that_name_the_variable() {
    let mut network = network_of::<u8>(&[&[(0, 9)], &[(0, 9)], &[(0, 9)], &[(0, 20)], &[(4, 4)]]);
    require_all(&mut network, &EACH_KIND);
    check_settled(&mut network, &EACH_KIND_NARROWED);
    assert_eq!(network.restrict(3, &set_of(&[(0, 2)])), Ok(()));
    assert_eq!(network.settle(0), Ok(Settled::Unfinished));
    check_settled(&mut network, &(9, Settled::All, &["[0..1]", "[0..1]", "[0..1]", "[1..2]", "[4..4]"]));
    made(network.add_variable(set_of(&[(7, 7)])));
    check_settled(&mut network, &(0, Settled::All, &["[0..1]", "[0..1]", "[0..1]", "[1..2]", "[4..4]", "[7..7]"]));
}

#[test]
fn an_unknown_variable_changes_nothing() {
    let mut network = network_of(&THREE_DOMAINS);
    check_required(&mut network, Rule::Sum(sum([0, 5, 3])), Err(StoreFault::Variable(5)));
    assert_eq!(network.restrict(3, &set_of(&[])), Err(StoreFault::Variable(3)));
    assert!(network.rules().is_empty());
    check_settled(&mut network, &(0, Settled::All, &["[0..10]", "[3..4]", "[5..6]"]));
}

// The examples in the docs.
#[test]
fn as_the_docs_have_it() {
    let mut network = network_of::<i32>(&[&[(0, 9)], &[(0, 9)]]);
    require_all(&mut network, &A_CIRCLE);
    check_settled(&mut network, &(3, Settled::Unfinished, &["[3..7]", "[2..6]"]));
    check_settled(&mut network, &(100, Settled::All, &["{}", "{}"]));
    // x + 3 <= y
    let mut network = network_of::<i32>(&[&[(0, 9)], &[(0, 9)]]);
    require_all(&mut network, &[Rule::AtMost { x: 0, y: 1, by: 3 }]);
    check_settled(&mut network, &(0, Settled::Unfinished, &["[0..9]", "[0..9]"]));
    check_settled(&mut network, &(10, Settled::All, &["[0..6]", "[3..9]"]));
    assert_eq!(network.restrict(0, &set_of(&[(5, 20)])), Ok(()));
    check_settled(&mut network, &(0, Settled::Unfinished, &["[5..6]", "[3..9]"]));
}
