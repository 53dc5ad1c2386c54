//! What a program's lines do, as far as it decides whether they are kept.

use super::states;

/// The words of a program that tell which lines change nothing.
pub struct Words {
    /// The first words of the lines that only read.
    pub reads: &'static [&'static str],
    /// How the answer begins to a line that changed nothing.
    pub refused: &'static [&'static str],
    /// What stands before the `>` at a terminal.
    pub prompt: &'static str,
    /// What lists the lines that are understood.
    pub help: &'static str,
    /// How the state is asked for, and written as lines.
    pub(super) state: super::states::State,
}

/// The calculator's.
pub const RUN: Words = Words {
    reads: &["has", "size", "count", "same", "sub", "low", "high", "meets", "show"],
    refused: &["bad line", "refused "],
    prompt: "sets",
    help: "ivl_run --help",
    state: states::registers,
};
/// The solver's.
pub const SOLVE: Words = Words {
    reads: &["show", "solve", "count", "min", "max"],
    refused: &["error: "],
    prompt: "solve",
    help: "ivl_solve --help",
    state: states::rules,
};
/// Those of the free ports.
pub const PORTS: Words = Words {
    reads: &["free", "help"],
    refused: &["error: ", "none", "some of them are free"],
    prompt: "ports",
    help: "help",
    state: states::ports,
};
/// Those of the free blocks.
pub const BLOCKS: Words = Words {
    reads: &["free", "largest", "help"],
    refused: &["error: ", "none", "some of them are free"],
    prompt: "blocks",
    help: "help",
    state: states::blocks,
};
/// Those of the check of ranges.
pub const RANGES: Words =
    Words { reads: &["check", "help"], refused: &["error: "], prompt: "ranges", help: "help", state: states::ranges };
/// The calendar's.
pub const CALENDAR: Words = Words {
    reads: &["rooms", "show", "gap", "free", "who", "of", "help"],
    refused: &["error: ", "taken", "not booked"],
    prompt: "calendar",
    help: "help",
    state: states::calendar,
};

impl Words {
    /// Returns whether a line only reads, whatever it is answered. A line with `=` is a rule of the solver, whose first word may be
    /// the name of a variable; one with `#` at its beginning is a comment, or no line of the calculator.
    pub(super) fn only_reads(&self, line: &[u8]) -> bool {
        let first = line.split(u8::is_ascii_whitespace).find(|word| !word.is_empty()).unwrap_or_default();
        first.starts_with(b"#")
            || !line.contains(&b'=') && (first.is_empty() || self.reads.iter().any(|word| word.as_bytes() == first))
    }

    /// Returns whether a line that is answered so has changed nothing.
    pub(super) fn changed_nothing(&self, answer: &[u8]) -> bool {
        self.refused.iter().any(|text| answer.starts_with(text.as_bytes()))
    }
}
