//! The constraints of FlatZinc, each by sums, tables and memberships.

use crate::arithmetic::clause;
use crate::items::{Constraint, Expression};
use crate::lexer::Fault;
use crate::linear::{Relation, Term, set_of};
use crate::names::{Names, Value, number_of};
use crate::network::{Network, Set};

/// The constraints that are known, with how many arguments each has.
const KNOWN: [(&str, usize); 48] = [
    ("int_lin_le", 3),
    ("int_lin_eq", 3),
    ("int_lin_ne", 3),
    ("int_lin_le_reif", 4),
    ("int_lin_eq_reif", 4),
    ("int_lin_ne_reif", 4),
    ("bool_lin_le", 3),
    ("bool_lin_eq", 3),
    ("int_eq", 2),
    ("int_ne", 2),
    ("int_le", 2),
    ("int_lt", 2),
    ("int_eq_reif", 3),
    ("int_ne_reif", 3),
    ("int_le_reif", 3),
    ("int_lt_reif", 3),
    ("bool_eq", 2),
    ("bool_le", 2),
    ("bool_lt", 2),
    ("bool_not", 2),
    ("bool2int", 2),
    ("bool_eq_reif", 3),
    ("bool_le_reif", 3),
    ("bool_lt_reif", 3),
    ("bool_and", 3),
    ("bool_or", 3),
    ("bool_xor", 3),
    ("array_bool_and", 2),
    ("array_bool_or", 2),
    ("array_bool_xor", 1),
    ("bool_clause", 2),
    ("bool_clause_reif", 3),
    ("set_in", 2),
    ("set_in_reif", 3),
    ("int_plus", 3),
    ("int_times", 3),
    ("int_div", 3),
    ("int_mod", 3),
    ("int_pow", 3),
    ("int_abs", 2),
    ("int_max", 3),
    ("int_min", 3),
    ("array_int_maximum", 2),
    ("array_int_minimum", 2),
    ("array_int_element", 3),
    ("array_bool_element", 3),
    ("array_var_int_element", 3),
    ("array_var_bool_element", 3),
];

/// Requires a constraint of the network.
pub fn post(constraint: &Constraint, names: &Names, network: &mut Network) -> Result<(), Fault> {
    let fault = |text: String| Fault::new(constraint.line, format!("{}: {text}", constraint.name));
    let Some((_, count)) = KNOWN.iter().find(|(name, _)| *name == constraint.name) else {
        return Err(fault("this constraint is not known".into()));
    };
    if constraint.arguments.len() != *count {
        return Err(fault(format!("{} arguments instead of {count}", constraint.arguments.len())));
    }
    let mut poster = Poster { names, network, arguments: &constraint.arguments };
    poster.post(constraint.name).map_err(fault)
}

struct Poster<'a> {
    names: &'a Names<'a>,
    network: &'a mut Network,
    arguments: &'a [Expression<'a>],
}

type Done = Result<(), String>;

impl Poster<'_> {
    fn post(&mut self, name: &str) -> Done {
        match name {
            "int_lin_le" | "bool_lin_le" => self.linear(Relation::AtMost),
            "int_lin_eq" | "bool_lin_eq" => self.linear(Relation::Equals),
            "int_lin_ne" => self.linear(Relation::Differs),
            "int_lin_le_reif" => self.linear_if(Relation::AtMost),
            "int_lin_eq_reif" => self.linear_if(Relation::Equals),
            "int_lin_ne_reif" => self.linear_if(Relation::Differs),
            "int_eq" => self.compare(Relation::Equals, 0),
            "int_ne" => self.compare(Relation::Differs, 0),
            "int_le" => self.compare(Relation::AtMost, 0),
            "int_lt" => self.compare(Relation::AtMost, -1),
            "int_eq_reif" => self.compare_if(Relation::Equals, 0),
            "int_ne_reif" => self.compare_if(Relation::Differs, 0),
            "int_le_reif" => self.compare_if(Relation::AtMost, 0),
            "int_lt_reif" => self.compare_if(Relation::AtMost, -1),
            "set_in" => self.set_in(),
            "set_in_reif" => self.set_in_if(),
            _ if name.contains("bool") => self.logic(name),
            _ => self.arithmetic(name),
        }
    }

    fn logic(&mut self, name: &str) -> Done {
        match name {
            "bool2int" => self.bool_to_int(),
            "bool_eq" => self.bools_within(2, &[1, -1], &Set::singleton(0)),
            "bool_le" => self.bools_within(2, &[1, -1], &Set::new(-1, 0)),
            "bool_lt" => self.bools_within(2, &[1, -1], &Set::singleton(-1)),
            "bool_not" => self.bools_within(2, &[1, 1], &Set::singleton(1)),
            "bool_eq_reif" => self.bools_if(&[1, -1], &Set::singleton(0)),
            "bool_le_reif" => self.bools_if(&[1, -1], &Set::new(-1, 0)),
            "bool_lt_reif" => self.bools_if(&[1, -1], &Set::singleton(-1)),
            "bool_and" => self.bools_if(&[1, 1], &Set::singleton(2)),
            "bool_or" => self.bools_if(&[1, 1], &Set::new(1, 2)),
            "bool_xor" => self.bools_if(&[1, 1], &Set::singleton(1)),
            "array_bool_and" => self.count_if(|count| Set::singleton(count)),
            "array_bool_or" => self.count_if(|count| if count == 0 { Set::empty() } else { Set::new(1, count) }),
            "array_bool_xor" => self.odd(),
            "bool_clause" => self.clause(),
            "bool_clause_reif" => self.clause_if(),
            _ => self.element(),
        }
    }

    fn arithmetic(&mut self, name: &str) -> Done {
        match name {
            "array_int_maximum" | "array_int_minimum" => {
                let (extreme, variables) = (self.variable(0)?, self.variables(1)?);
                self.network.extreme(&variables, extreme, name == "array_int_maximum")
            }
            "array_int_element" | "array_var_int_element" => self.element(),
            "int_abs" => {
                let (x, y) = (self.variable(0)?, self.variable(1)?);
                self.network.absolute(x, y)
            }
            _ => self.operation(name),
        }
    }

    /// An operation on two variables, and its result.
    fn operation(&mut self, name: &str) -> Done {
        let (x, y, z) = (self.variable(0)?, self.variable(1)?, self.variable(2)?);
        match name {
            "int_plus" => self.network.compare(&[(1, x), (1, y), (-1, z)], Relation::Equals, 0),
            "int_times" => self.network.product(x, y, z),
            "int_div" => self.network.quotient(x, y, z),
            "int_mod" => self.network.remainder(x, y, z),
            "int_pow" => self.network.power(x, y, z),
            "int_max" | "int_min" => self.network.extreme(&[x, y], z, name == "int_max"),
            _ => Err("this constraint is not known".into()),
        }
    }

    fn linear(&mut self, relation: Relation) -> Done {
        let mut terms = self.terms()?;
        let number = match self.value(2)? {
            Value::Variable(variable) => {
                terms.push((-1, variable));
                0
            }
            value => number_of(&value).ok_or("argument 3 is not a number")?,
        };
        self.network.compare(&terms, relation, number)
    }

    fn linear_if(&mut self, relation: Relation) -> Done {
        let (terms, number, b) = (self.terms()?, self.number(2)?, self.bool(3)?);
        self.network.within_if(&terms, &set_of(relation, number), b)
    }

    /// The first stands so to the second, and a number that is added to that.
    fn compare(&mut self, relation: Relation, number: i64) -> Done {
        let (x, y) = (self.variable(0)?, self.variable(1)?);
        self.network.compare(&[(1, x), (-1, y)], relation, number)
    }

    fn compare_if(&mut self, relation: Relation, number: i64) -> Done {
        let (x, y, b) = (self.variable(0)?, self.variable(1)?, self.bool(2)?);
        self.network.within_if(&[(1, x), (-1, y)], &set_of(relation, number), b)
    }

    fn set_in(&mut self) -> Done {
        let (x, set) = (self.variable(0)?, self.set(1)?);
        self.network.keep(x, &set);
        Ok(())
    }

    fn set_in_if(&mut self) -> Done {
        let (x, set, b) = (self.variable(0)?, self.set(1)?, self.bool(2)?);
        self.network.member(x, &set, b)
    }

    fn bool_to_int(&mut self) -> Done {
        let (b, x) = (self.bool(0)?, self.variable(1)?);
        self.network.compare(&[(1, b), (-1, x)], Relation::Equals, 0)
    }

    /// The first arguments, each with its factor.
    fn bool_terms(&mut self, count: usize, factors: &[i64]) -> Result<Vec<Term>, String> {
        (0..count).map(|i| Ok((factors[i], self.bool(i)?))).collect()
    }

    fn bools_within(&mut self, count: usize, factors: &[i64], set: &Set) -> Done {
        let terms = self.bool_terms(count, factors)?;
        self.network.within(&terms, set)
    }

    fn bools_if(&mut self, factors: &[i64], set: &Set) -> Done {
        let (terms, b) = (self.bool_terms(2, factors)?, self.bool(2)?);
        self.network.within_if(&terms, set, b)
    }

    /// The second argument is 1 where the count of ones of the first is in a set, which is made of the length.
    fn count_if(&mut self, set: impl Fn(i64) -> Set) -> Done {
        let (bools, b) = (self.bools(0)?, self.bool(1)?);
        let terms: Vec<Term> = bools.iter().map(|x| (1, *x)).collect();
        self.network.within_if(&terms, &set(bools.len() as i64), b)
    }

    fn odd(&mut self) -> Done {
        let terms: Vec<Term> = self.bools(0)?.iter().map(|x| (1, *x)).collect();
        let odd = (1..=terms.len() as i64).step_by(2).collect();
        self.network.within(&terms, &odd)
    }

    fn clause(&mut self) -> Done {
        let (positive, negative) = (self.bools(0)?, self.bools(1)?);
        self.network.at_least_one(&positive, &negative)
    }

    fn clause_if(&mut self) -> Done {
        let (positive, negative, b) = (self.bools(0)?, self.bools(1)?, self.bool(2)?);
        let set = set_of(Relation::AtMost, negative.len() as i64 - 1);
        self.network.within_if(&clause(&positive, &negative), &set, b)
    }

    fn element(&mut self) -> Done {
        let (index, array, y) = (self.variable(0)?, self.variables(1)?, self.variable(2)?);
        self.network.element(index, &array, y)
    }

    fn value(&self, i: usize) -> Result<Value, String> {
        self.names.value(&self.arguments[i]).map_err(|text| format!("argument {}: {text}", i + 1))
    }

    fn values(&self, i: usize) -> Result<Vec<Value>, String> {
        self.names.values(&self.arguments[i]).map_err(|text| format!("argument {}: {text}", i + 1))
    }

    fn number(&self, i: usize) -> Result<i64, String> {
        number_of(&self.value(i)?).ok_or_else(|| format!("argument {} is not a number", i + 1))
    }

    fn set(&self, i: usize) -> Result<Set, String> {
        match self.value(i)? {
            Value::Set(set) => Ok(set),
            _ => Err(format!("argument {} is not a set", i + 1)),
        }
    }

    fn variable_of(&mut self, value: Value, i: usize) -> Result<usize, String> {
        match value {
            Value::Variable(variable) => Ok(variable),
            value => self.network.constant(number_of(&value).ok_or_else(|| format!("argument {} is a set", i + 1))?),
        }
    }

    /// The variable that is an argument, or one that has its number alone.
    fn variable(&mut self, i: usize) -> Result<usize, String> {
        let value = self.value(i)?;
        self.variable_of(value, i)
    }

    fn variables(&mut self, i: usize) -> Result<Vec<usize>, String> {
        self.values(i)?.into_iter().map(|value| self.variable_of(value, i)).collect()
    }

    fn as_bool(&self, variable: usize, i: usize) -> Result<usize, String> {
        let (lower, upper) = self.network.ends(variable);
        // (an impossible network leaves a variable numbers that it cannot have)
        if (lower < 0 || upper > 1) && !self.network.is_impossible {
            Err(format!("argument {} has other numbers than those of a bool", i + 1))
        } else {
            Ok(variable)
        }
    }

    fn bool(&mut self, i: usize) -> Result<usize, String> {
        let variable = self.variable(i)?;
        self.as_bool(variable, i)
    }

    fn bools(&mut self, i: usize) -> Result<Vec<usize>, String> {
        self.variables(i)?.into_iter().map(|variable| self.as_bool(variable, i)).collect()
    }

    /// The factors of the first argument and the variables of the second.
    fn terms(&mut self) -> Result<Vec<Term>, String> {
        let factors = self.values(0)?;
        let variables = self.variables(1)?;
        if factors.len() != variables.len() {
            return Err(format!("{} factors for {} variables", factors.len(), variables.len()));
        }
        let term =
            |(factor, variable)| Ok((number_of(factor).ok_or("argument 1 is not an array of numbers")?, variable));
        factors.iter().zip(variables).map(term).collect()
    }
}
