//! The words, numbers and signs of a FlatZinc text, each with its line.

use std::fmt;

/// What is wrong with a model, and in which line, counted from 1; 0 if it is in no line.
#[derive(Debug, PartialEq, Eq)]
pub struct Fault {
    pub line: usize,
    pub text: String,
}

impl Fault {
    pub fn new(line: usize, text: impl Into<String>) -> Fault {
        Fault { line, text: text.into() }
    }
}

#[derive(Clone, Copy, Debug, PartialEq)]
pub enum Token<'a> {
    Word(&'a str),
    Number(i64),
    Float(&'a str),
    Text(&'a str),
    Sign(&'static str),
    End,
}

impl fmt::Display for Token<'_> {
    fn fmt(&self, f: &mut fmt::Formatter<'_>) -> fmt::Result {
        match self {
            Token::Word(word) => write!(f, "`{word}`"),
            Token::Number(number) => write!(f, "`{number}`"),
            Token::Float(number) => write!(f, "`{number}`"),
            Token::Text(_) => write!(f, "a text"),
            Token::Sign(sign) => write!(f, "`{sign}`"),
            Token::End => write!(f, "the end of the file"),
        }
    }
}

/// Two signs stand before those that they begin with.
const SIGNS: [&str; 12] = ["::", "..", "(", ")", "[", "]", "{", "}", ",", ";", ":", "="];

pub struct Lexer<'a> {
    text: &'a str,
    at: usize,
    line: usize,
}

impl<'a> Lexer<'a> {
    pub fn new(text: &'a str) -> Lexer<'a> {
        Lexer { text, at: 0, line: 1 }
    }

    /// The next token and its line.
    pub fn next(&mut self) -> Result<(usize, Token<'a>), Fault> {
        self.skip_blanks();
        let line = self.line;
        let Some(first) = self.byte(0) else { return Ok((line, Token::End)) };
        let token = match first {
            b'"' => self.quoted()?,
            b'0'..=b'9' | b'-' | b'+' => self.number()?,
            b'a'..=b'z' | b'A'..=b'Z' | b'_' => Token::Word(self.take(|b| b.is_ascii_alphanumeric() || b == b'_')),
            _ => self.sign()?,
        };
        Ok((line, token))
    }

    fn byte(&self, ahead: usize) -> Option<u8> {
        self.text.as_bytes().get(self.at + ahead).copied()
    }

    fn skip_blanks(&mut self) {
        while let Some(byte) = self.byte(0) {
            match byte {
                b'\n' => self.line += 1,
                b' ' | b'\t' | b'\r' => {}
                b'%' => {
                    self.take(|b| b != b'\n');
                    continue;
                }
                _ => return,
            }
            self.at += 1;
        }
    }

    /// The text of the bytes from here on that are wanted.
    fn take(&mut self, wanted: impl Fn(u8) -> bool) -> &'a str {
        let rest = &self.text[self.at..];
        let length = rest.bytes().position(|b| !wanted(b)).unwrap_or(rest.len());
        self.at += length;
        &rest[..length]
    }

    fn quoted(&mut self) -> Result<Token<'a>, Fault> {
        let start = self.at + 1;
        self.at = start;
        loop {
            match self.byte(0) {
                Some(b'"') => break,
                Some(b'\\') if self.byte(1).is_some_and(|b| b != b'\n') => self.at += 2,
                Some(b'\n') | None => return Err(Fault::new(self.line, "a text without its closing quote")),
                Some(_) => self.at += 1,
            }
        }
        self.at += 1;
        Ok(Token::Text(&self.text[start..self.at - 1]))
    }

    fn number(&mut self) -> Result<Token<'a>, Fault> {
        let start = self.at;
        self.at += 1;
        self.take(|b| b.is_ascii_digit());
        if self.passes_fraction() || matches!(self.byte(0), Some(b'e' | b'E')) {
            self.take(|b| matches!(b, b'e' | b'E'));
            self.take(|b| matches!(b, b'+' | b'-' | b'0'..=b'9'));
            return Ok(Token::Float(&self.text[start..self.at]));
        }
        let text = &self.text[start..self.at];
        match text.parse() {
            Ok(number) => Ok(Token::Number(number)),
            Err(_) if text.len() > 1 => Err(Fault::new(self.line, format!("{text} is not a number of 64 bits"))),
            Err(_) => Err(Fault::new(self.line, format!("unexpected `{text}`"))),
        }
    }

    /// Passes a point and digits after it, and not the two points of a range.
    fn passes_fraction(&mut self) -> bool {
        let is_fraction = self.byte(0) == Some(b'.') && self.byte(1).is_some_and(|b| b.is_ascii_digit());
        if is_fraction {
            self.at += 1;
            self.take(|b| b.is_ascii_digit());
        }
        is_fraction
    }

    fn sign(&mut self) -> Result<Token<'a>, Fault> {
        let rest = &self.text[self.at..];
        match SIGNS.into_iter().find(|sign| rest.starts_with(sign)) {
            Some(sign) => {
                self.at += sign.len();
                Ok(Token::Sign(sign))
            }
            None => {
                let unknown = rest.chars().next().unwrap_or_default();
                Err(Fault::new(self.line, format!("unexpected {unknown:?}")))
            }
        }
    }
}

#[cfg(test)]
mod tests {
    use super::*;

    fn tokens(text: &str) -> Result<Vec<(usize, Token<'_>)>, Fault> {
        let mut lexer = Lexer::new(text);
        let mut all = Vec::new();
        loop {
            match lexer.next()? {
                (_, Token::End) => return Ok(all),
                token => all.push(token),
            }
        }
    }

    #[test]
    fn ranges_are_no_fractions() {
        let range = [(1, Token::Number(-1)), (1, Token::Sign("..")), (1, Token::Number(3))];
        assert_eq!(tokens("-1..3 % a comment"), Ok(range.to_vec()));
        assert_eq!(tokens("1.5e-3\n2e5"), Ok(vec![(1, Token::Float("1.5e-3")), (2, Token::Float("2e5"))]));
    }

    #[test]
    fn faults_have_their_line() {
        assert_eq!(tokens("a\n\"b"), Err(Fault::new(2, "a text without its closing quote")));
        assert_eq!(
            tokens("\n\n9223372036854775808"),
            Err(Fault::new(3, "9223372036854775808 is not a number of 64 bits"))
        );
        assert_eq!(tokens("a ? b"), Err(Fault::new(1, "unexpected '?'")));
        assert_eq!(tokens("-"), Err(Fault::new(1, "unexpected `-`")));
        assert_eq!(tokens(r#""\é\"""#), Ok(vec![(1, Token::Text(r#"\é\""#))]));
    }

    #[test]
    fn the_least_number_of_64_bits_is_one() {
        assert_eq!(tokens("-9223372036854775808"), Ok(vec![(1, Token::Number(i64::MIN))]));
    }
}
