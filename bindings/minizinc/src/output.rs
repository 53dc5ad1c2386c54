//! What is printed: the solutions, as MiniZinc reads them, and how the search ended.

use crate::items::{Declaration, Expression, Type};
use crate::lexer::Fault;
use crate::names::{Names, Value};
use std::fmt::Write as _;
use std::io::{self, Write};

pub const NONE: &str = "=====UNSATISFIABLE=====";
pub const ALL: &str = "==========";
pub const UNKNOWN: &str = "=====UNKNOWN=====";
pub const ERROR: &str = "=====ERROR=====";

/// A declaration that is printed, with what its elements stand for.
pub struct Shown<'a> {
    name: &'a str,
    /// The ranges of an array's indexes.
    ranges: Option<Vec<(i64, i64)>>,
    values: Vec<Value>,
    is_bool: bool,
}

/// What the annotations of the declarations want printed, in their order.
pub fn shown<'a>(declarations: &[Declaration<'a>], names: &Names<'a>) -> Result<Vec<Shown<'a>>, Fault> {
    let mut all = Vec::new();
    for declaration in declarations {
        for annotation in &declaration.annotations {
            let shown = shown_by(annotation, declaration, names);
            all.extend(shown.map_err(|text| Fault::new(declaration.line, format!("{}: {text}", declaration.name)))?);
        }
    }
    Ok(all)
}

fn shown_by<'a>(
    annotation: &Expression,
    declaration: &Declaration<'a>,
    names: &Names<'a>,
) -> Result<Option<Shown<'a>>, String> {
    let name = Expression::Word(declaration.name);
    let (ranges, values) = match annotation {
        Expression::Word("output_var") => (None, vec![names.value(&name)?]),
        Expression::Call("output_array", arguments) => (Some(ranges_of(arguments)?), names.values(&name)?),
        _ => return Ok(None),
    };
    Ok(Some(Shown { name: declaration.name, ranges, values, is_bool: declaration.of == Type::Bool }))
}

fn ranges_of(arguments: &[Expression]) -> Result<Vec<(i64, i64)>, String> {
    let [Expression::List(ranges)] = arguments else { return Err("output_array without a list of ranges".into()) };
    let range_of = |range: &Expression| match range {
        Expression::Range(lower, upper) => Ok((*lower, *upper)),
        Expression::Set(numbers) if numbers.is_empty() => Ok((1, 0)),
        _ => Err("output_array with an index set that is no range".into()),
    };
    ranges.iter().map(range_of).collect()
}

impl Shown<'_> {
    /// The variables that are printed.
    pub fn variables(&self) -> impl Iterator<Item = usize> {
        self.values
            .iter()
            .filter_map(|value| if let Value::Variable(variable) = value { Some(*variable) } else { None })
    }

    fn show(&self, text: &mut String, value: &Value, point: &[i64]) {
        let number = match value {
            Value::Number(number) => *number,
            Value::Bool(bool) => i64::from(*bool),
            Value::Variable(variable) => point[*variable],
            Value::Set(set) => {
                let _ =
                    write!(text, "{{{}}}", set.iter().map(|number| number.to_string()).collect::<Vec<_>>().join(","));
                return;
            }
        };
        let _ = if self.is_bool { write!(text, "{}", number == 1) } else { write!(text, "{number}") };
    }

    fn line(&self, text: &mut String, point: &[i64]) {
        let _ = write!(text, "{} = ", self.name);
        if let Some(ranges) = &self.ranges {
            let _ = write!(text, "array{}d(", ranges.len());
            for (lower, upper) in ranges {
                let _ = write!(text, "{lower}..{upper},");
            }
            text.push('[');
        }
        for (i, value) in self.values.iter().enumerate() {
            text.push_str(if i > 0 { "," } else { "" });
            self.show(text, value, point);
        }
        text.push_str(if self.ranges.is_some() { "]);\n" } else { ";\n" });
    }
}

/// The lines of a solution.
pub fn solution(shown: &[Shown], point: &[i64]) -> String {
    let mut text = String::new();
    shown.iter().for_each(|one| one.line(&mut text, point));
    text.push_str("----------\n");
    text
}

/// Standard output, with what stands ready to be printed where the time ends.
pub struct Output {
    pub has_solution: bool,
    /// The best solution so far, if only the last is wanted.
    pub best: Option<String>,
}

impl Output {
    pub fn print(&mut self, text: &str) -> io::Result<()> {
        let mut out = io::stdout().lock();
        out.write_all(text.as_bytes())?;
        out.flush()
    }

    /// Prints the best solution, if it is not yet printed.
    pub fn print_best(&mut self) -> io::Result<()> {
        match self.best.take() {
            Some(text) => self.print(&text),
            None => Ok(()),
        }
    }

    /// Prints what a search that did not end has to say.
    pub fn stop(&mut self) -> io::Result<()> {
        self.print_best()?;
        if self.has_solution { Ok(()) } else { self.print(&format!("{UNKNOWN}\n")) }
    }
}

#[cfg(test)]
mod tests {
    use super::*;

    #[test]
    fn solutions_are_printed_as_they_are_read() {
        let array = Shown {
            name: "a",
            ranges: Some(vec![(0, 1), (1, 1)]),
            values: vec![Value::Variable(1), Value::Bool(false)],
            is_bool: true,
        };
        let scalar = Shown { name: "x", ranges: None, values: vec![Value::Variable(0)], is_bool: false };
        assert_eq!(solution(&[array, scalar], &[-7, 1]), "a = array2d(0..1,1..1,[true,false]);\nx = -7;\n----------\n");
    }
}
