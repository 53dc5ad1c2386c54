//! What the names of a model stand for. Variables that the model holds equal are one.

use crate::items::{Constraint, Declaration, Expression, Model, Type};
use crate::lexer::Fault;
use crate::network::{Network, Set};
use std::collections::{HashMap, HashSet};

#[derive(Clone, Debug)]
pub enum Value {
    Number(i64),
    Bool(bool),
    Variable(usize),
    Set(Set),
}

#[derive(Debug, Default)]
pub struct Names<'a> {
    scalars: HashMap<&'a str, Value>,
    arrays: HashMap<&'a str, Vec<Value>>,
}

/// The set that a list of numbers or a range says.
fn set_of(expression: &Expression) -> Result<Set, String> {
    match expression {
        Expression::Range(lower, upper) if lower > upper => Ok(Set::empty()),
        Expression::Range(lower, upper) => Set::checked_new(*lower, *upper).ok_or("overflow: -2^63 in a set".into()),
        Expression::Set(numbers) => {
            Set::checked_from_iter(numbers.iter().copied()).ok_or("overflow: -2^63 in a set".into())
        }
        _ => Err("expected a set".into()),
    }
}

impl<'a> Names<'a> {
    /// Declares all names of a model, and its variables in the network.
    pub fn new(model: &Model<'a>, network: &mut Network) -> Result<Names<'a>, Fault> {
        let mut names = Names::default();
        names.declare_variables(model, network)?;
        for declaration in &model.declarations {
            let declared = if declaration.length.is_some() {
                names.declare_array(declaration)
            } else if declaration.is_variable {
                names.give_value(declaration, network)
            } else {
                names.declare_parameter(declaration)
            };
            declared.map_err(|text| Fault::new(declaration.line, format!("{}: {text}", declaration.name)))?;
        }
        Ok(names)
    }

    fn declare_variables(&mut self, model: &Model<'a>, network: &mut Network) -> Result<(), Fault> {
        let mut classes = Classes::new(model)?;
        let mut of_class: HashMap<usize, usize> = HashMap::new();
        for declaration in model.declarations.iter().filter(|declaration| is_scalar_variable(declaration)) {
            let fault = |text: String| Fault::new(declaration.line, format!("{}: {text}", declaration.name));
            let domain = domain_of(&declaration.of).map_err(fault)?;
            let class = classes.root(classes.numbers[declaration.name]);
            let variable = match of_class.get(&class) {
                Some(variable) => {
                    network.keep(*variable, &domain);
                    *variable
                }
                None => network.variable(domain).map_err(fault)?,
            };
            of_class.insert(class, variable);
            self.scalars.insert(declaration.name, Value::Variable(variable));
        }
        Ok(())
    }

    /// Holds a variable equal to what its declaration gives it.
    fn give_value(&mut self, declaration: &Declaration<'a>, network: &mut Network) -> Result<(), String> {
        let Some(value) = &declaration.value else { return Ok(()) };
        let (Value::Variable(variable), other) = (self.scalars[declaration.name].clone(), self.value(value)?) else {
            return Ok(());
        };
        match other {
            Value::Variable(other) => network.shifted(variable, other, 0),
            Value::Number(_) | Value::Bool(_) => {
                let number = number_of(&other).ok_or("expected a number")?;
                network.keep(variable, &Set::checked_singleton(number).unwrap_or_default());
                Ok(())
            }
            Value::Set(_) => Err("expected a number or a variable, found a set".into()),
        }
    }

    fn declare_parameter(&mut self, declaration: &Declaration<'a>) -> Result<(), String> {
        let value = declaration.value.as_ref().ok_or("a parameter without its value")?;
        let value = self.value(value)?;
        check(&value, &declaration.of)?;
        self.scalars.insert(declaration.name, value);
        Ok(())
    }

    fn declare_array(&mut self, declaration: &Declaration<'a>) -> Result<(), String> {
        let values = match &declaration.value {
            Some(Expression::List(list)) => list.iter().map(|one| self.value(one)).collect::<Result<Vec<_>, _>>()?,
            Some(Expression::Word(name)) => self.arrays.get(name).ok_or(format!("{name} is no array"))?.clone(),
            _ => return Err("an array without its elements".into()),
        };
        if declaration.length != Some(values.len() as i64) {
            return Err(format!("{} elements", values.len()));
        }
        for value in &values {
            match value {
                Value::Variable(_) if declaration.is_variable => {}
                Value::Variable(_) => return Err("a variable in an array of parameters".into()),
                value => check(value, &declaration.of)?,
            }
        }
        self.arrays.insert(declaration.name, values);
        Ok(())
    }

    /// What an expression without lists stands for.
    pub fn value(&self, expression: &Expression) -> Result<Value, String> {
        match expression {
            Expression::Number(number) => Ok(Value::Number(*number)),
            Expression::Bool(bool) => Ok(Value::Bool(*bool)),
            Expression::Range(..) | Expression::Set(_) => Ok(Value::Set(set_of(expression)?)),
            Expression::Word(name) => self.scalars.get(name).cloned().ok_or(format!("unknown name {name}")),
            Expression::Element(name, index) => {
                let array = self.arrays.get(name).ok_or(format!("unknown array {name}"))?;
                let place = usize::try_from(*index).ok().and_then(|index| index.checked_sub(1));
                place.and_then(|place| array.get(place)).cloned().ok_or(format!("{name} has no element {index}"))
            }
            Expression::List(_) => Err("expected one value, found an array".into()),
            Expression::Text(_) => Err("expected a value, found a text".into()),
            Expression::Call(name, _) => Err(format!("expected a value, found {name}(..)")),
        }
    }

    /// What the elements of an array stand for.
    pub fn values(&self, expression: &Expression) -> Result<Vec<Value>, String> {
        match expression {
            Expression::List(list) => list.iter().map(|one| self.value(one)).collect(),
            Expression::Word(name) => self.arrays.get(name).cloned().ok_or(format!("unknown array {name}")),
            _ => Err("expected an array".into()),
        }
    }
}

pub fn number_of(value: &Value) -> Option<i64> {
    match value {
        Value::Number(number) => Some(*number),
        Value::Bool(bool) => Some(i64::from(*bool)),
        _ => None,
    }
}

/// That a value is of the type with which it is declared.
fn check(value: &Value, of: &Type) -> Result<(), String> {
    let fits = match (value, of) {
        (Value::Bool(_), Type::Bool) | (Value::Number(_), Type::Int) | (Value::Set(_), Type::SetOfInt) => true,
        (Value::Number(number), Type::Range(lower, upper)) => lower <= number && number <= upper,
        (Value::Number(number), Type::Set(numbers)) => numbers.contains(number),
        _ => false,
    };
    if fits { Ok(()) } else { Err("a value that is not of its type".into()) }
}

fn is_scalar_variable(declaration: &Declaration) -> bool {
    declaration.is_variable && declaration.length.is_none()
}

fn domain_of(of: &Type) -> Result<Set, String> {
    match of {
        Type::Bool => Ok(Set::new(0, 1)),
        Type::Range(lower, upper) => set_of(&Expression::Range(*lower, *upper)),
        Type::Set(numbers) => set_of(&Expression::Set(numbers.clone())),
        Type::Int => Err("a variable without bounds: give it a domain, as 0..100".into()),
        Type::SetOfInt | Type::Float => Err("only numbers and bools are supported".into()),
    }
}

/// The declared variables, joined where the model holds them equal.
struct Classes<'a> {
    numbers: HashMap<&'a str, usize>,
    above: Vec<usize>,
}

impl<'a> Classes<'a> {
    fn new(model: &Model<'a>) -> Result<Classes<'a>, Fault> {
        let mut classes = Classes { numbers: HashMap::new(), above: Vec::new() };
        let mut names = HashSet::new();
        for declaration in &model.declarations {
            if !names.insert(declaration.name) {
                return Err(Fault::new(declaration.line, format!("{}: a second declaration", declaration.name)));
            }
            if is_scalar_variable(declaration) {
                classes.numbers.insert(declaration.name, classes.above.len());
                classes.above.push(classes.above.len());
            }
        }
        for declaration in model.declarations.iter().filter(|declaration| is_scalar_variable(declaration)) {
            if let Some(Expression::Word(other)) = &declaration.value {
                classes.join(declaration.name, other);
            }
        }
        model.constraints.iter().for_each(|constraint| classes.join_by(constraint));
        Ok(classes)
    }

    fn join_by(&mut self, constraint: &Constraint<'a>) {
        if let ("bool2int" | "int_eq" | "bool_eq", [Expression::Word(one), Expression::Word(other)]) =
            (constraint.name, &constraint.arguments[..])
        {
            self.join(one, other);
        }
    }

    fn join(&mut self, one: &str, other: &str) {
        if let (Some(&one), Some(&other)) = (self.numbers.get(one), self.numbers.get(other)) {
            let (one, other) = (self.root(one), self.root(other));
            self.above[one.max(other)] = one.min(other);
        }
    }

    fn root(&mut self, number: usize) -> usize {
        let mut root = number;
        while self.above[root] != root {
            self.above[root] = self.above[self.above[root]];
            root = self.above[root];
        }
        root
    }
}
