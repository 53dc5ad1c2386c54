// Written by bindings/rust/extract from crates/ivl_lines/src/commands.rt.
//! Lines that are answered by their first word and the words after it.

#[allow(unused_imports)]
use crate::rattle::prelude::*;
use crate::proved::ivl_lines::session::Answers;
use crate::proved::ivl_lines::text::{first_word, line_text};
use crate::proved::ivl_lines::words::next_word;
use crate::rattle::std::io;
use crate::rattle::std::io::Write;

/// What answers commands, and keeps the state between them. It answers the lines of a session too: a
/// line without words has no answer, one that is not UTF-8 is answered `error: not UTF-8`, and one
/// that is lost `error: out of memory`.
pub trait AnswersCommands {
    /// Returns whether the answer to the command of this name may take long, so that what was answered
    /// before it is flushed first. A line without words has the empty name; one that is not UTF-8 has
    /// its first word all the same.
    fn command_may_take_long(&self, name: &[u8]) -> bool;

    /// Answers a command, given its name and the text after it.
    ///
    /// # Errors
    ///
    /// Fails only if a write failed, which ends the session.
    fn answer_command<W: Write>(
        &mut self,
        name: &str,
        words: &str,
        writer: &mut W,
    ) -> io::Result<()>;
}

impl<A: AnswersCommands> Answers for A {
    fn may_take_long(&self, line: &[u8]) -> bool {
        self.command_may_take_long(first_word(line))
    }

    fn answer<W: Write>(&mut self, line: &[u8], writer: &mut W) -> io::Result<()> {
        answer_line(self, line, writer)
    }

    fn answer_to_lost(&self) -> &'static [u8] {
        b"error: out of memory\n"
    }
}

fn answer_line<A: AnswersCommands, W: Write>(
    answers: &mut A,
    line: &[u8],
    writer: &mut W,
) -> io::Result<()> {
    match line_text(line) {
        Some(text) => answer_text(answers, text, writer),
        None => writer.write_all(b"error: not UTF-8\n"),
    }
}

fn answer_text<A: AnswersCommands, W: Write>(
    answers: &mut A,
    text: &str,
    writer: &mut W,
) -> io::Result<()> {
    match next_word(text) {
        Some((name, words)) => answers.answer_command(name, words, writer),
        None => Ok(()),
    }
}
