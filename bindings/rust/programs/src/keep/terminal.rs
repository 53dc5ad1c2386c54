//! Lines that a user writes at a terminal: a prompt before each, and `quit`.
use crate::keep::Words;
use std::io::{self, BufRead, IsTerminal, Read, Write};
use std::path::Path;

/// Where the lines of a session come from.
pub struct Input {
    from: io::BufReader<io::Stdin>,
    prompt: Option<&'static str>,
}

impl Input {
    /// Returns standard input; at a terminal a line is asked for with this prompt.
    pub fn new(prompt: &'static str) -> Input {
        Input { from: io::BufReader::new(io::stdin()), prompt: io::stdin().is_terminal().then_some(prompt) }
    }

    /// Reads a line, of at most so many bytes, with the newline at its end. Nothing is read at the end, and at a terminal where
    /// `quit` or `exit` stands alone on the line.
    pub fn read_line(&mut self, line: &mut Vec<u8>, most: u64) -> io::Result<usize> {
        if let Some(prompt) = self.prompt {
            eprint!("{prompt}> ");
        }
        let count = self.from.by_ref().take(most).read_until(b'\n', line)?;
        if self.prompt.is_none() {
            return Ok(count);
        }
        if count == 0 {
            eprintln!();
        }
        match line.trim_ascii() {
            b"quit" | b"exit" => {
                line.clear();
                Ok(0)
            }
            _ => Ok(count),
        }
    }
}

/// The reader of a session at a terminal: each read gives what is left of a line.
pub struct Lines {
    input: Input,
    line: Vec<u8>,
    given: usize,
    is_over: bool,
}

impl Lines {
    /// Returns a reader of standard input.
    pub fn new(prompt: &'static str) -> Lines {
        Lines { input: Input::new(prompt), line: Vec::new(), given: 0, is_over: false }
    }
}

impl Read for Lines {
    fn read(&mut self, to: &mut [u8]) -> io::Result<usize> {
        if self.given == self.line.len() && !self.is_over {
            self.line.clear();
            self.given = 0;
            self.is_over = self.input.read_line(&mut self.line, u64::MAX)? == 0;
        }
        let left = &self.line[self.given..];
        let count = left.len().min(to.len());
        to[..count].copy_from_slice(&left[..count]);
        self.given += count;
        Ok(count)
    }
}

/// The mark that a program leaves for the one that `rlwrap` starts.
const WRAPPED: &str = "INTERVALLUM_RLWRAP";

/// Says how to use the program, before the first prompt.
pub fn greet(name: &str, words: &Words, kept: Option<&Path>) {
    eprintln!("{name}: one line at a time; {} lists them; quit ends it", words.help);
    match kept {
        Some(path) => eprintln!("{name}: Ctrl-C ends it too; what was answered stays in {}", path.display()),
        None => eprintln!("{name}: Ctrl-C ends it too; what was done is then lost, unless --keep FILE keeps it"),
    }
    if std::env::var_os(WRAPPED).is_none() && rlwrap().is_none() {
        eprintln!("{name}: rlwrap, once installed, adds history and editing");
    }
}

/// Where `rlwrap` is, by `PATH`.
fn rlwrap() -> Option<std::path::PathBuf> {
    std::env::split_paths(&std::env::var_os("PATH")?).map(|folder| folder.join("rlwrap")).find(|path| path.is_file())
}

/// Goes on as a program that `rlwrap` starts, with history and editing, where both ends are a terminal and there is one. Returns
/// otherwise.
pub fn wrap(name: &str) {
    #[cfg(unix)]
    {
        use std::os::unix::process::CommandExt;
        if std::env::var_os(WRAPPED).is_some() || !io::stdin().is_terminal() || !io::stdout().is_terminal() {
            return;
        }
        if let (Some(rlwrap), Ok(program)) = (rlwrap(), std::env::current_exe()) {
            let mut command = std::process::Command::new(rlwrap);
            command.args(["-C", name]).arg(program).args(std::env::args_os().skip(1)).env(WRAPPED, "1");
            // (it returns only where it cannot be started)
            let _ = command.exec();
        }
    }
    let _ = io::stderr().flush();
    let _ = name;
}
