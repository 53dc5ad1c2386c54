// Written by bindings/rust/extract from crates/ivl_calculator_lines/src/engine.rt.
//! What answers the lines of a session of the calculator.

#[allow(unused_imports)]
use crate::rattle::prelude::*;
use crate::proved::ivl_calculator_lines::lines::{Line, Unkept, read_line};
use crate::proved::ivl_calculator_lines::replies::write_reply;
use crate::proved::ivl_calculator::{Calc, Refusal, Reply};
use crate::proved::ivl_lines::{Answers, SessionFault, first_word, serve};
use crate::rattle::std::alloc::Global;
use crate::rattle::std::io;
use crate::rattle::std::io::{Read, Write};

const REGISTERS: usize = 26;

// The registers of a session. A contract sees the lists of their runs.
struct Registers {
    alloc: Global,
    calc: Calc<i64>,
}

impl Answers for Registers {
    fn may_take_long(&self, line: &[u8]) -> bool {
        match first_word(line) {
            b"plus" | b"minus" | b"times" => true,
            _ => false,
        }
    }

    fn answer<W: Write>(&mut self, line: &[u8], writer: &mut W) -> io::Result<()> {
        answer_line(self.alloc, &mut self.calc, line, writer)
    }

    fn answer_to_lost(&self) -> &'static [u8] {
        b"refused 4 memory\n"
    }
}

/// Answers each line of the input, over registers that are empty at first. What is written is
/// flushed before each read, before each line of sums, differences or products of two registers,
/// and at the end.
///
/// # Errors
///
/// `Read` if a read failed, or the reader still returned bytes after 2^64 - 1 reads; an interrupted
/// read is repeated. `Write` if a write or a flush failed. `Memory` if there is no memory to begin:
/// nothing is then read or written. A line or a command for which an allocation fails is refused, and
/// the session continues.
///
/// ```
/// use intervallum_programs::proved::examples::*;
/// use intervallum_programs::proved::ivl_calculator_lines::*;
///
/// fn main() -> Result<(), std::boxed::Box<dyn std::error::Error>> {
///     let alloc = Global;
///     let mut input: &[u8] = b"set a 5 6\nshow a";
///     let mut written = Vec::new(alloc);
///     assert_eq!(session(alloc, &mut input, &mut written), Ok(()));
///     assert_eq!(written.as_slice(), b"ok\n[5..6]\n".as_slice());
///     Ok(())
/// }
/// ```
pub fn session<R: Read, W: Write>(
    alloc: Global,
    reader: &mut R,
    writer: &mut W,
) -> Result<(), SessionFault> {
    let calc = Calc::new(alloc, REGISTERS)?;
    serve(alloc, &mut Registers { alloc, calc }, reader, writer)
}

fn answer_line<W: Write>(
    alloc: Global,
    calc: &mut Calc<i64>,
    line: &[u8],
    writer: &mut W,
) -> io::Result<()> {
    match read_line(alloc, line) {
        Ok(read) => carry_out(calc, &read, writer),
        Err(unkept) => write_unkept(calc, unkept, writer),
    }
}

// Refuses a `set` for whose pairs there is no memory, with the reason that counts.
fn write_unkept<W: Write>(calc: &Calc<i64>, unkept: Unkept, writer: &mut W) -> io::Result<()> {
    let why = if unkept.register >= calc.registers() {
        Refusal::Register
    } else if unkept.in_range {
        Refusal::Memory
    } else {
        Refusal::Range
    };
    write_reply(writer, &Reply::Refused(why))
}

// Carries out what a line says, and writes the answer to it.
fn carry_out<W: Write>(calc: &mut Calc<i64>, line: &Line, writer: &mut W) -> io::Result<()> {
    match line {
        Line::Blank => Ok(()),
        Line::Bad => writer.write_all(b"bad line\n"),
        Line::Command(command) => {
            let reply = calc.apply(command);
            write_reply(writer, &reply)
        }
    }
}
