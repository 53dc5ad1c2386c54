// Written by bindings/rust/extract from crates/ivl_lines/src/lib.rt.
//! Programs that read lines: the words and numbers of a line, and a session, which reads lines to the end of its input,
//! has each answered, and writes the answers.

#[allow(unused_imports)]
use crate::rattle::prelude::*;

mod arguments;
mod begun_line;
mod commands;
mod escapes;
mod numbers;
mod program;
mod session;
mod text;
mod words;

pub use arguments::{Start, start_of};
pub use commands::AnswersCommands;
pub use escapes::Escaped;
pub use numbers::{number_from, pairs_from};
pub use program::{Program, outcome, run};
pub use session::{Answers, SessionFault, serve};
pub use text::{first_word, line_text};
pub use words::{next_word, one_word, three_words, two_words};

/// The version of these crates, which the programs print.
pub const VERSION: &str = "2.0.0";
