//! A session whose lines are kept in a file, so that the next one goes on where it ended: `--keep FILE`.
//!
//! The proved session reads the kept lines first, in silence, and then those of standard input: so what it answers is what one
//! session over all of these lines answers. This module gives it the lines and takes its answers; it is tested, and not proved.
//!
//! The file is text. Its first line names the program; each other has eight characters, a space, and a line of the session:
//!
//! | The eight characters | The line |
//! |---|---|
//! | a number in hexadecimal digits | was answered, with a text of this checksum |
//! | `????????` | is on the disk, and was not yet answered |
//!
//! A line that only reads is not kept, and one that changed nothing is taken away again once it is answered.
use crate::proved::ivl_lines::{Program, SessionFault, outcome};
use crate::rattle::runtime::HostRuntime;
use std::cell::RefCell;
use std::fmt;
use std::io::{self, IsTerminal, Read, Write};
use std::process::ExitCode;
use std::rc::Rc;

mod compact;
mod file;
mod lock;
mod states;
mod terminal;
mod words;

pub use words::{BLOCKS, CALENDAR, PORTS, RANGES, RUN, SOLVE, Words};

use file::KeptFile;

/// The most bytes of a line of a session that is kept.
pub const LINE: usize = 1 << 20;

/// Why a session that is kept ended.
#[derive(Debug)]
enum Fault {
    /// Standard input cannot be read.
    Input(io::Error),
    /// Standard output cannot be written.
    Output(io::Error),
    /// The file cannot be opened, read or written.
    File(io::Error),
    /// A line cannot be added to the file.
    NotKept(io::Error),
    /// The file has another first line than this program writes.
    Foreign(String),
    /// Another program has the file.
    Taken,
    /// This kept line is now answered otherwise.
    Differs(u64, Vec<u8>),
    /// A line is longer than [`LINE`].
    Long,
    /// The state cannot be written as lines of the program.
    NoLines(String),
}

impl fmt::Display for Fault {
    fn fmt(&self, to: &mut fmt::Formatter<'_>) -> fmt::Result {
        match self {
            Fault::Input(error) => write!(to, "read failed: {error}"),
            Fault::Output(error) => write!(to, "write failed: {error}"),
            Fault::File(error) => write!(to, "{error}"),
            Fault::NotKept(error) => write!(to, "a line cannot be kept, and was not carried out: {error}"),
            Fault::Foreign(first) => write!(to, "not a file of this program: it begins with {first:?}"),
            Fault::Taken => write!(to, "another program keeps its lines in it"),
            Fault::Differs(number, line) => {
                write!(to, "line {number}, `{}`, is not answered as it was", line.escape_ascii())
            }
            Fault::NoLines(why) => write!(to, "the lines stay as they are: {why}"),
            Fault::Long => write!(to, "a line has more than {LINE} bytes, which are not kept"),
        }
    }
}

/// The lines of a session, and what it answered to the last of them.
struct Session {
    file: KeptFile,
    words: &'static Words,
    input: terminal::Input,
    answer: Vec<u8>,
    line: Vec<u8>,
    given: usize,
    asked: Asked,
    fault: Option<Fault>,
}

/// What the session was given last.
enum Asked {
    /// Nothing, or a line of which all is done.
    Nothing,
    /// A kept line, which was answered with a text of this checksum; none where it was not yet answered.
    Kept(Option<u32>),
    /// A line of standard input; its place in the file, unless it only reads.
    New(Option<u64>),
}

impl Session {
    /// Does what is to be done with a line once it is answered: a kept line must be answered as it was, and the answer to a new one
    /// is written.
    fn settle(&mut self) -> Result<(), Fault> {
        let asked = std::mem::replace(&mut self.asked, Asked::Nothing);
        match asked {
            Asked::Nothing => {}
            Asked::Kept(Some(sum)) => {
                if sum != checksum(&self.answer) {
                    return Err(Fault::Differs(self.file.number(), self.line.clone()));
                }
            }
            Asked::Kept(None) => self.file.mark(self.file.last(), checksum(&self.answer)).map_err(Fault::File)?,
            Asked::New(place) => {
                match place {
                    Some(place) if self.words.changed_nothing(&self.answer) => self.file.take_back(place),
                    Some(place) => self.file.mark(place, checksum(&self.answer)),
                    None => Ok(()),
                }
                .map_err(Fault::File)?;
                self.tell()?;
            }
        }
        self.answer.clear();
        Ok(())
    }

    /// Writes the answer.
    fn tell(&mut self) -> Result<(), Fault> {
        let mut out = io::stdout().lock();
        out.write_all(&self.answer).and_then(|()| out.flush()).map_err(Fault::Output)
    }

    /// Takes the next line: a kept one while there are any, and then one of standard input, which is on the disk when this returns.
    /// Returns false at the end.
    fn next(&mut self) -> Result<bool, Fault> {
        self.given = 0;
        if let Some(sum) = self.file.next(&mut self.line).map_err(Fault::File)? {
            self.asked = Asked::Kept(sum);
            return Ok(true);
        }
        if !self.read_line()? {
            return Ok(false);
        }
        let place = match self.words.only_reads(&self.line) {
            true => None,
            false => Some(self.file.add(&self.line).map_err(Fault::NotKept)?),
        };
        self.asked = Asked::New(place);
        Ok(true)
    }

    /// Reads a line of standard input, without its newline. Returns false at the end.
    fn read_line(&mut self) -> Result<bool, Fault> {
        self.line.clear();
        let count = self.input.read_line(&mut self.line, LINE as u64 + 1).map_err(Fault::Input)?;
        if self.line.last() == Some(&b'\n') {
            self.line.pop();
        } else if count > LINE {
            return Err(Fault::Long);
        }
        Ok(count > 0)
    }

    /// Gives on what is left of the line, with a newline at its end.
    fn give(&mut self, to: &mut [u8]) -> usize {
        let left = &self.line[self.given.min(self.line.len())..];
        let count = left.len().min(to.len());
        to[..count].copy_from_slice(&left[..count]);
        self.given += count;
        if count == left.len() && count < to.len() {
            to[count] = b'\n';
            self.given += 1;
            return count + 1;
        }
        count
    }

    /// The proved session reads only once all that it read before is answered.
    fn read(&mut self, to: &mut [u8]) -> Result<usize, Fault> {
        if !matches!(self.asked, Asked::Nothing) && self.given <= self.line.len() {
            return Ok(self.give(to));
        }
        self.settle()?;
        if self.next()? { Ok(self.give(to)) } else { Ok(0) }
    }
}

/// The reader that the proved session is given.
struct Lines(Rc<RefCell<Session>>);

impl Read for Lines {
    fn read(&mut self, to: &mut [u8]) -> io::Result<usize> {
        let mut session = self.0.borrow_mut();
        session.read(to).map_err(|fault| {
            session.fault = Some(fault);
            io::ErrorKind::Other.into()
        })
    }
}

/// The writer that the proved session is given.
struct Answers(Rc<RefCell<Session>>);

impl Write for Answers {
    fn write(&mut self, bytes: &[u8]) -> io::Result<usize> {
        self.0.borrow_mut().answer.extend_from_slice(bytes);
        Ok(bytes.len())
    }

    fn flush(&mut self) -> io::Result<()> {
        Ok(())
    }
}

/// FNV-1a, in 32 bits.
fn checksum(text: &[u8]) -> u32 {
    text.iter().fold(0x811c_9dc5, |sum, byte| (sum ^ u32::from(*byte)).wrapping_mul(0x0100_0193))
}

/// Runs a program: with `--keep FILE` as a session whose lines are kept, and otherwise as its proved `main` does. At a terminal it
/// asks for each line.
pub fn main<P: Program>(proved: fn(HostRuntime) -> ExitCode, words: &'static Words) -> ExitCode {
    let arguments: Vec<_> = std::env::args_os().skip(1).collect();
    match arguments.as_slice() {
        [] if io::stdin().is_terminal() => at_terminal::<P>(words),
        [] => proved(HostRuntime),
        [word] if word == "--help" => help::<P>(proved),
        [word] if word == "--version" => proved(HostRuntime),
        [keep, path] if keep == "--keep" => kept::<P>(path.as_ref(), words),
        [keep, path, compact] if keep == "--keep" && compact == "--compact" => compacted::<P>(path.as_ref(), words),
        [compact, keep, path] if keep == "--keep" && compact == "--compact" => compacted::<P>(path.as_ref(), words),
        [keep] if keep == "--keep" => misused::<P>("--keep needs the name of a file"),
        [word, ..] if word == "--compact" => misused::<P>("--compact goes with --keep FILE"),
        [.., word] => misused::<P>(&format!("there is no argument {}; --help lists the lines", word.to_string_lossy())),
    }
}

/// What `--help` says of the arguments that are this module's.
const HELP: &str = "\
--keep FILE has each line that changes something in FILE, on the disk, before it is answered, and goes on where FILE
ends. With --compact it writes FILE anew as the fewest lines, and ends. At a terminal quit ends the program.
";

/// Prints the help of a program, and then that of the arguments that are this module's.
fn help<P: Program>(proved: fn(HostRuntime) -> ExitCode) -> ExitCode {
    let printed = proved(HostRuntime);
    if printed == ExitCode::SUCCESS && io::stdout().write_all(HELP.as_bytes()).is_err() {
        return status::<P>(&Err(SessionFault::Write));
    }
    printed
}

/// Says what is wrong with the arguments.
fn misused<P: Program>(why: &str) -> ExitCode {
    eprintln!("{}: {why}", P::NAME);
    ExitCode::from(2)
}

/// Answers the lines that a user writes at a terminal.
fn at_terminal<P: Program>(words: &'static Words) -> ExitCode {
    terminal::wrap(P::NAME);
    terminal::greet(P::NAME, words, None);
    let (mut lines, mut out) = (terminal::Lines::new(words.prompt), io::stdout().lock());
    status::<P>(&P::session(&HostRuntime, &mut lines, &mut out))
}

/// Writes the state of a session that is kept as the fewest lines.
fn compacted<P: Program>(path: &std::path::Path, words: &'static Words) -> ExitCode {
    match compact::compact::<P>(path, words) {
        Ok((before, after)) => {
            eprintln!("{}: {}: {after} lines in place of {before}", P::NAME, path.display());
            ExitCode::SUCCESS
        }
        Err(fault) => {
            eprintln!("{}: {}: {fault}", P::NAME, path.display());
            ExitCode::from(1)
        }
    }
}

/// Answers the lines of standard input after those of the file.
fn kept<P: Program>(path: &std::path::Path, words: &'static Words) -> ExitCode {
    if io::stdin().is_terminal() {
        terminal::wrap(P::NAME);
        terminal::greet(P::NAME, words, Some(path));
    }
    let told = |fault: &Fault| match fault {
        Fault::Input(_) | Fault::Output(_) | Fault::Long => eprintln!("{}: {fault}", P::NAME),
        _ => eprintln!("{}: {}: {fault}", P::NAME, path.display()),
    };
    let file = match KeptFile::open(path, P::NAME) {
        Ok(file) => file,
        Err(fault) => {
            told(&fault);
            return ExitCode::from(1);
        }
    };
    let session = Rc::new(RefCell::new(Session {
        file,
        words,
        input: terminal::Input::new(words.prompt),
        answer: Vec::new(),
        line: Vec::new(),
        given: 0,
        asked: Asked::Nothing,
        fault: None,
    }));
    let ended = P::session(&HostRuntime, &mut Lines(session.clone()), &mut Answers(session.clone()));
    let mut session = session.borrow_mut();
    if let Some(fault) = session.fault.take().or_else(|| session.settle().err()) {
        told(&fault);
        return ExitCode::from(1);
    }
    status::<P>(&ended)
}

/// The exit status of a session that no fault of the file ended.
fn status<P: Program>(ended: &Result<(), SessionFault>) -> ExitCode {
    let (status, fault) = outcome(ended);
    if !fault.is_empty() {
        eprintln!("{}: {fault}", P::NAME);
    }
    ExitCode::from(status)
}
