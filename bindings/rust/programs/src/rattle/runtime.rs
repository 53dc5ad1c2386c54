//! What a program has of the machine: arguments, standard input and output.
use ::intervallum::rattle::alloc::Global;
use ::std::fs::File;
use ::std::io::{self, Read, Write};
use ::std::os::fd::AsFd;
use ::std::string::String;
use ::std::vec::IntoIter;
use core::fmt::Arguments;

/// What `main` is given.
pub struct HostRuntime;

/// Standard input, or output, without a buffer of its own. Where there is no second descriptor for it each call fails.
// `Stdin` and `Stdout` of std take a descriptor that cannot be read or written for an empty input, or for a sink
pub struct Stream(io::Result<File>);

impl Stream {
    fn file(&mut self) -> io::Result<&mut File> {
        self.0.as_mut().map_err(|error| error.kind().into())
    }
}

impl Read for Stream {
    fn read(&mut self, to: &mut [u8]) -> io::Result<usize> {
        self.file()?.read(to)
    }
}

impl Write for Stream {
    fn write(&mut self, bytes: &[u8]) -> io::Result<usize> {
        self.file()?.write(bytes)
    }

    fn flush(&mut self) -> io::Result<()> {
        self.file()?.flush()
    }
}

impl HostRuntime {
    /// Returns the allocator.
    pub fn alloc(&self) -> Global {
        Global
    }

    /// Returns standard input.
    pub fn stdin(&self) -> Stream {
        Stream(io::stdin().as_fd().try_clone_to_owned().map(File::from))
    }

    /// Returns standard output.
    pub fn stdout(&self) -> Stream {
        Stream(io::stdout().as_fd().try_clone_to_owned().map(File::from))
    }

    /// Writes to standard output.
    pub fn print(&self, words: Arguments<'_>) -> io::Result<()> {
        self.stdout().write_fmt(words)
    }

    /// Writes to standard error.
    pub fn eprint(&self, words: Arguments<'_>) -> io::Result<()> {
        io::stderr().write_fmt(words)
    }
}

/// Returns the arguments, the name of the program first. Fails if one is not UTF-8.
pub fn args(_rt: &HostRuntime) -> io::Result<IntoIter<String>> {
    let words: Result<Vec<String>, _> = ::std::env::args_os().map(|word| word.into_string()).collect();
    Ok(words.map_err(|_| io::ErrorKind::InvalidData)?.into_iter())
}

// in scope in all of `proved`, before the macros of std with these names
macro_rules! print {
    ($rt:expr; $($words:tt)*) => { $rt.print(format_args!($($words)*)) };
}
macro_rules! println {
    ($rt:expr; $($words:tt)*) => { $rt.print(format_args!("{}\n", format_args!($($words)*))) };
}
macro_rules! eprint {
    ($rt:expr; $($words:tt)*) => { $rt.eprint(format_args!($($words)*)) };
}
macro_rules! eprintln {
    ($rt:expr; $($words:tt)*) => { $rt.eprint(format_args!("{}\n", format_args!($($words)*))) };
}
