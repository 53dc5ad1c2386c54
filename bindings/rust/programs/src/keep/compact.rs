//! A kept session, written anew as the fewest lines.
use super::file::KeptFile;
use super::{Fault, Words, checksum};
use crate::proved::ivl_lines::Program;
use crate::rattle::runtime::HostRuntime;
use std::io::{self, Read, Write};
use std::path::{Path, PathBuf};
use std::sync::mpsc::{Receiver, Sender, channel};
use std::{fs, thread};

/// The reader and the writer of a session that is asked line by line.
struct Asked {
    lines: Receiver<Vec<u8>>,
    answers: Sender<Vec<u8>>,
    line: io::Cursor<Vec<u8>>,
    answer: std::rc::Rc<std::cell::RefCell<Vec<u8>>>,
    has_begun: bool,
}

impl Read for Asked {
    /// The proved session reads only once all that it read before is answered.
    fn read(&mut self, to: &mut [u8]) -> io::Result<usize> {
        if self.line.position() == self.line.get_ref().len() as u64 {
            if self.has_begun {
                let _ = self.answers.send(self.answer.take());
            }
            let Ok(line) = self.lines.recv() else {
                return Ok(0);
            };
            self.has_begun = true;
            self.line = io::Cursor::new(line);
        }
        self.line.read(to)
    }
}

struct Answer(std::rc::Rc<std::cell::RefCell<Vec<u8>>>);

impl Write for Answer {
    fn write(&mut self, bytes: &[u8]) -> io::Result<usize> {
        self.0.borrow_mut().extend_from_slice(bytes);
        Ok(bytes.len())
    }

    fn flush(&mut self) -> io::Result<()> {
        Ok(())
    }
}

/// Asks a session a line, and returns its answer.
type Ask<'a> = dyn FnMut(&[u8]) -> Result<Vec<u8>, Fault> + 'a;

/// Gives `with` a session that it can ask lines, and returns what it returns.
fn session<P: Program, T>(with: impl FnOnce(&mut Ask<'_>) -> Result<T, Fault>) -> Result<T, Fault> {
    let (to_lines, lines) = channel();
    let (answers, from_answers) = channel();
    thread::scope(|scope| {
        scope.spawn(move || {
            let answer = std::rc::Rc::default();
            let mut reader = Asked {
                lines,
                answers,
                line: io::Cursor::default(),
                answer: std::rc::Rc::clone(&answer),
                has_begun: false,
            };
            P::session(&HostRuntime, &mut reader, &mut Answer(answer))
        });
        let result = with(&mut |line| {
            let mut line = line.to_vec();
            line.push(b'\n');
            let ended = |_| Fault::NoLines("the session ended".into());
            to_lines.send(line).map_err(|_| Fault::NoLines("the session ended".into()))?;
            from_answers.recv().map_err(ended)
        });
        drop(to_lines);
        result
    })
}

/// The lines that lead to the state of a session.
fn state_lines(words: &Words, kept: &[Vec<u8>], ask: &mut Ask<'_>) -> Result<Vec<String>, Fault> {
    let mut asked = |line: &str| {
        let answer = ask(line.as_bytes())?;
        let text = String::from_utf8(answer).map_err(|_| Fault::NoLines("an answer is not UTF-8".into()))?;
        Ok(text.strip_suffix('\n').unwrap_or(&text).to_owned())
    };
    (words.state)(&mut asked, kept)
}

/// Replaces the lines of a kept session by the fewest that lead to its state, and returns how many there were, and are. The new file
/// takes the place of the old one once it is on the disk; both are locked until then.
pub(super) fn compact<P: Program>(path: &Path, words: &Words) -> Result<(usize, usize), Fault> {
    // (the file itself is replaced, and not a link to it)
    let path = &fs::canonicalize(path).map_err(Fault::File)?;
    let mut file = KeptFile::open(path, P::NAME)?;
    let mut kept = Vec::new();
    let lines = session::<P, _>(|ask| {
        let mut line = Vec::new();
        while let Some(sum) = file.next(&mut line).map_err(Fault::File)? {
            let answer = ask(&line)?;
            if sum.is_some_and(|sum| sum != checksum(&answer)) {
                return Err(Fault::Differs(file.number(), line));
            }
            kept.push(line.clone());
        }
        state_lines(words, &kept, ask)
    })?;
    let rows = session::<P, _>(|ask| {
        let mut rows = Vec::new();
        for line in &lines {
            rows.push((checksum(&ask(line.as_bytes())?), line.as_bytes()));
        }
        let carried: Vec<_> = lines.iter().map(|line| line.clone().into_bytes()).collect();
        if state_lines(words, &carried, ask)? != lines {
            return Err(Fault::NoLines("its own lines do not tell it, as where a name has control characters".into()));
        }
        Ok(rows)
    })?;
    let beside = beside(path);
    let written = fs::metadata(path)
        .and_then(|old| KeptFile::write(&beside, P::NAME, &rows, old.permissions()))
        .and_then(|()| fs::rename(&beside, path));
    if let Err(error) = written {
        let _ = fs::remove_file(&beside);
        return Err(Fault::File(error));
    }
    super::file::sync_folder(path).map_err(Fault::File)?;
    Ok((kept.len(), lines.len()))
}

/// The name of the new file until it takes the place of the old one.
fn beside(path: &Path) -> PathBuf {
    let mut name = path.as_os_str().to_owned();
    name.push(".compacting");
    name.into()
}
