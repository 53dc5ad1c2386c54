//! The items of a FlatZinc text, as they are written. What a constraint means is not known here.

use crate::lexer::{Fault, Lexer, Token};

/// How deep lists and calls may stand in one another, so that no text can overflow the stack.
const DEEPEST: usize = 100;

#[derive(Clone, Debug, PartialEq)]
pub enum Expression<'a> {
    Bool(bool),
    Number(i64),
    Range(i64, i64),
    Set(Vec<i64>),
    Word(&'a str),
    Element(&'a str, i64),
    List(Vec<Expression<'a>>),
    Text(&'a str),
    Call(&'a str, Vec<Expression<'a>>),
}

#[derive(Clone, Debug, PartialEq)]
pub enum Type {
    Bool,
    Int,
    Range(i64, i64),
    Set(Vec<i64>),
    SetOfInt,
    Float,
}

/// `array [1..2] of var 1..3: x :: output_array([1..2]) = [a,b];` or one without its array, its `var`, its value.
#[derive(Debug)]
pub struct Declaration<'a> {
    pub line: usize,
    pub length: Option<i64>,
    pub is_variable: bool,
    pub of: Type,
    pub name: &'a str,
    pub annotations: Vec<Expression<'a>>,
    pub value: Option<Expression<'a>>,
}

/// `constraint int_le(x,y);`
#[derive(Debug)]
pub struct Constraint<'a> {
    pub line: usize,
    pub name: &'a str,
    pub arguments: Vec<Expression<'a>>,
}

#[derive(Debug, PartialEq)]
pub enum Goal<'a> {
    Satisfy,
    Minimize(Expression<'a>),
    Maximize(Expression<'a>),
}

#[derive(Debug)]
pub struct Model<'a> {
    pub declarations: Vec<Declaration<'a>>,
    pub constraints: Vec<Constraint<'a>>,
    pub goal: Goal<'a>,
    pub goal_line: usize,
}

/// Returns the items of a text.
pub fn read(text: &str) -> Result<Model<'_>, Fault> {
    let mut lexer = Lexer::new(text);
    let (line, token) = lexer.next()?;
    let mut reader = Reader { lexer, line, token, depth: 0, in_annotation: false };
    let mut model = Model { declarations: Vec::new(), constraints: Vec::new(), goal: Goal::Satisfy, goal_line: 0 };
    while reader.token != Token::End {
        reader.item(&mut model)?;
        reader.want(";")?;
    }
    if model.goal_line == 0 {
        return Err(Fault::new(reader.line, "there is no `solve`"));
    }
    Ok(model)
}

struct Reader<'a> {
    lexer: Lexer<'a>,
    /// The next token, and its line.
    token: Token<'a>,
    line: usize,
    depth: usize,
    in_annotation: bool,
}

impl<'a> Reader<'a> {
    fn item(&mut self, model: &mut Model<'a>) -> Result<(), Fault> {
        let line = self.line;
        if self.is("predicate")? {
            return self.skip_predicate();
        }
        if self.is("constraint")? {
            let Expression::Call(name, arguments) = self.expression()? else {
                return Err(Fault::new(line, "expected a constraint with its arguments"));
            };
            self.annotations()?;
            model.constraints.push(Constraint { line, name, arguments });
        } else if self.is("solve")? {
            if model.goal_line > 0 {
                return Err(Fault::new(line, "a second `solve`"));
            }
            model.goal_line = line;
            self.annotations()?;
            model.goal = self.goal()?;
        } else {
            model.declarations.push(self.declaration()?);
        }
        Ok(())
    }

    fn goal(&mut self) -> Result<Goal<'a>, Fault> {
        if self.is("satisfy")? {
            Ok(Goal::Satisfy)
        } else if self.is("minimize")? {
            Ok(Goal::Minimize(self.expression()?))
        } else if self.is("maximize")? {
            Ok(Goal::Maximize(self.expression()?))
        } else {
            self.fault("`satisfy`, `minimize` or `maximize`")
        }
    }

    /// A predicate says which constraint a solver has of its own; one that is not known is a fault where it is used.
    fn skip_predicate(&mut self) -> Result<(), Fault> {
        while !matches!(self.token, Token::Sign(";") | Token::End) {
            self.advance()?;
        }
        Ok(())
    }

    fn declaration(&mut self) -> Result<Declaration<'a>, Fault> {
        let line = self.line;
        let length = if self.is("array")? { Some(self.length()?) } else { None };
        let is_variable = self.is("var")?;
        let of = self.of_type(if is_variable || length.is_some() { "a type" } else { "an item" })?;
        self.want(":")?;
        let name = self.word()?;
        match of {
            Type::Float => return Err(Fault::new(line, format!("{name}: floats are not supported"))),
            Type::SetOfInt if is_variable => {
                return Err(Fault::new(line, format!("{name}: set variables are not supported")));
            }
            _ => {}
        }
        let annotations = self.annotations()?;
        let value = if self.is("=")? { Some(self.expression()?) } else { None };
        Ok(Declaration { line, length, is_variable, of, name, annotations, value })
    }

    fn length(&mut self) -> Result<i64, Fault> {
        self.want("[")?;
        let range = self.expression()?;
        self.want("]")?;
        self.want("of")?;
        match range {
            Expression::Range(1, length) if length >= 0 => Ok(length),
            _ => Err(Fault::new(self.line, "the indexes of an array are not 1..n")),
        }
    }

    fn of_type(&mut self, wanted: &str) -> Result<Type, Fault> {
        if self.is("bool")? {
            return Ok(Type::Bool);
        }
        if self.is("int")? {
            return Ok(Type::Int);
        }
        if self.is("float")? {
            return Ok(Type::Float);
        }
        if self.is("set")? {
            self.want("of")?;
            self.of_type("a type")?;
            return Ok(Type::SetOfInt);
        }
        let line = self.line;
        match self.token {
            Token::Number(_) | Token::Float(_) | Token::Sign("{") => {}
            _ => return self.fault(wanted),
        }
        match self.expression()? {
            Expression::Range(lower, upper) => Ok(Type::Range(lower, upper)),
            Expression::Set(numbers) => Ok(Type::Set(numbers)),
            _ => Err(Fault::new(line, "expected a type")),
        }
    }

    fn annotations(&mut self) -> Result<Vec<Expression<'a>>, Fault> {
        let mut all = Vec::new();
        self.in_annotation = true;
        while self.is("::")? {
            all.push(self.expression()?);
        }
        self.in_annotation = false;
        Ok(all)
    }

    fn expression(&mut self) -> Result<Expression<'a>, Fault> {
        match self.token {
            Token::Number(number) => self.number_or_range(number),
            Token::Word(word) => self.word_or_call(word),
            Token::Text(text) => {
                self.advance()?;
                Ok(Expression::Text(text))
            }
            Token::Float(number) if self.in_annotation => {
                self.advance()?;
                Ok(Expression::Text(number))
            }
            Token::Float(number) => Err(Fault::new(self.line, format!("floats are not supported: {number}"))),
            Token::Sign("[") => Ok(Expression::List(self.list("]", Self::expression)?)),
            Token::Sign("{") => Ok(Expression::Set(self.list("}", Self::number)?)),
            _ => self.fault("an expression"),
        }
    }

    fn number_or_range(&mut self, lower: i64) -> Result<Expression<'a>, Fault> {
        self.advance()?;
        if self.is("..")? {
            return Ok(Expression::Range(lower, self.number()?));
        }
        Ok(Expression::Number(lower))
    }

    fn word_or_call(&mut self, word: &'a str) -> Result<Expression<'a>, Fault> {
        self.advance()?;
        match (word, self.token) {
            ("true", _) => Ok(Expression::Bool(true)),
            ("false", _) => Ok(Expression::Bool(false)),
            (_, Token::Sign("(")) => Ok(Expression::Call(word, self.list(")", Self::expression)?)),
            (_, Token::Sign("[")) => {
                self.advance()?;
                let index = self.number()?;
                self.want("]")?;
                Ok(Expression::Element(word, index))
            }
            _ => Ok(Expression::Word(word)),
        }
    }

    /// What stands between the token here and the one that closes it, with commas between.
    fn list<T>(&mut self, close: &str, one: fn(&mut Self) -> Result<T, Fault>) -> Result<Vec<T>, Fault> {
        if self.depth == DEEPEST {
            return Err(Fault::new(self.line, format!("more than {DEEPEST} lists in one another")));
        }
        self.depth += 1;
        self.advance()?;
        let mut all = Vec::new();
        while !self.is(close)? {
            all.push(one(self)?);
            if !self.is(",")? {
                self.want(close)?;
                break;
            }
        }
        self.depth -= 1;
        Ok(all)
    }

    fn number(&mut self) -> Result<i64, Fault> {
        match self.token {
            Token::Number(number) => {
                self.advance()?;
                Ok(number)
            }
            Token::Float(number) => Err(Fault::new(self.line, format!("floats are not supported: {number}"))),
            _ => self.fault("a number"),
        }
    }

    fn word(&mut self) -> Result<&'a str, Fault> {
        match self.token {
            Token::Word(word) => {
                self.advance()?;
                Ok(word)
            }
            _ => self.fault("a name"),
        }
    }

    fn advance(&mut self) -> Result<(), Fault> {
        (self.line, self.token) = self.lexer.next()?;
        Ok(())
    }

    /// Whether the next token is this word or sign, which is then passed.
    fn is(&mut self, wanted: &str) -> Result<bool, Fault> {
        let found = matches!(self.token, Token::Word(text) | Token::Sign(text) if text == wanted);
        if found {
            self.advance()?;
        }
        Ok(found)
    }

    fn want(&mut self, wanted: &str) -> Result<(), Fault> {
        if self.is(wanted)? { Ok(()) } else { self.fault(&format!("`{wanted}`")) }
    }

    fn fault<T>(&self, wanted: &str) -> Result<T, Fault> {
        Err(Fault::new(self.line, format!("expected {wanted}, found {}", self.token)))
    }
}

#[cfg(test)]
mod tests {
    use super::*;

    #[test]
    fn items_are_read_as_they_stand() {
        let text = "predicate p(var int: x);\narray [1..2] of var 1..3: xs :: output_array([1..2]) = [x,4];\nconstraint p(xs[1], {1,5}) :: domain;\nsolve :: restart_geometric(1.5,100) minimize x;\n";
        let model = read(text).unwrap();
        let declaration = &model.declarations[0];
        assert_eq!((declaration.name, declaration.line, declaration.length), ("xs", 2, Some(2)));
        assert_eq!(declaration.value, Some(Expression::List(vec![Expression::Word("x"), Expression::Number(4)])));
        assert_eq!(model.constraints[0].arguments, [Expression::Element("xs", 1), Expression::Set(vec![1, 5])]);
        assert_eq!((model.goal, model.goal_line), (Goal::Minimize(Expression::Word("x")), 4));
    }

    #[test]
    fn deep_lists_are_refused() {
        let deep = format!("solve :: {}1{} satisfy;", "[".repeat(100), "]".repeat(100));
        assert!(read(&deep).is_ok());
        let deeper = format!("solve :: {} satisfy;", "[".repeat(1_000_000));
        assert_eq!(read(&deeper).unwrap_err(), Fault::new(1, "more than 100 lists in one another"));
    }
}
