//! The file of a session that is kept.
use super::Fault;
use super::lock::{Lock, lock};
use std::fs::{File, OpenOptions, Permissions};
use std::io::{self, BufRead, BufReader, Read, Seek, SeekFrom, Write};
use std::path::Path;

const WAITS: &[u8; 8] = b"????????";

/// A file with its lines: those that are still to be read, and where the next one is added.
pub(super) struct KeptFile {
    file: File,
    lines: BufReader<File>,
    row: Vec<u8>,
    number: u64,
    last: u64,
    // where the lines of earlier sessions end
    earlier: u64,
    end: u64,
    _lock: Lock,
}

impl KeptFile {
    /// Opens a file for a program, makes it where there is none, and leaves out a last line that is torn.
    pub(super) fn open(path: &Path, program: &str) -> Result<KeptFile, Fault> {
        let mut file =
            OpenOptions::new().read(true).write(true).create(true).truncate(false).open(path).map_err(Fault::File)?;
        let lock = lock(&file).map_err(Fault::File)?.ok_or(Fault::Taken)?;
        // (another program may have put a shorter one in its place before it was locked)
        if !is_still(path, &file).map_err(Fault::File)? {
            return Err(Fault::Taken);
        }
        let head = head(program);
        if file.metadata().map_err(Fault::File)?.len() == 0 {
            begin(&mut file, path, &head).map_err(Fault::File)?;
        }
        let end = whole(&mut file).map_err(Fault::File)?;
        // (a clone of `file` would share its place)
        let mut lines = BufReader::with_capacity(1 << 16, File::open(path).map_err(Fault::File)?);
        let mut first = Vec::new();
        lines.by_ref().take(100).read_until(b'\n', &mut first).map_err(Fault::File)?;
        if first != head.as_bytes() {
            return Err(Fault::Foreign(String::from_utf8_lossy(&first).trim_end().into()));
        }
        let length = file.metadata().map_err(Fault::File)?.len();
        if end < length {
            eprintln!("{program}: {}: the last line is torn and is left out; it was never answered", path.display());
            file.set_len(end).map_err(Fault::File)?;
        }
        Ok(KeptFile { file, lines, row: first, number: 1, last: 0, earlier: end, end, _lock: lock })
    }

    /// Writes a new file with these lines, each with the checksum of its answer; one that was left half written goes. It is on the
    /// disk when this returns.
    pub(super) fn write(path: &Path, program: &str, rows: &[(u32, &[u8])], rights: Permissions) -> io::Result<()> {
        let mut file = OpenOptions::new().write(true).create(true).truncate(true).open(path)?;
        file.set_permissions(rights)?;
        let mut text = head(program).into_bytes();
        for (sum, line) in rows {
            text.extend_from_slice(format!("{sum:08x} ").as_bytes());
            text.extend_from_slice(line);
            text.push(b'\n');
        }
        file.write_all(&text)?;
        file.sync_all()
    }

    /// The number of the line that was read last, in the file.
    pub(super) fn number(&self) -> u64 {
        self.number
    }

    /// Where the line begins that was read last.
    pub(super) fn last(&self) -> u64 {
        self.last
    }

    /// Reads the next line of the earlier sessions, and returns the checksum of its answer, or none where it was not yet answered.
    /// `None` after the last.
    pub(super) fn next(&mut self, line: &mut Vec<u8>) -> io::Result<Option<Option<u32>>> {
        self.last += self.row.len() as u64;
        self.row.clear();
        if self.last >= self.earlier || self.lines.read_until(b'\n', &mut self.row)? == 0 {
            return Ok(None);
        }
        self.number += 1;
        let (mark, rest) = self.row.split_at_checked(9).ok_or_else(|| self.damaged())?;
        line.clear();
        line.extend_from_slice(rest.strip_suffix(b"\n").unwrap_or(rest));
        if &mark[..8] == WAITS {
            return Ok(Some(None));
        }
        let sum = std::str::from_utf8(&mark[..8]).ok().and_then(|digits| u32::from_str_radix(digits, 16).ok());
        Ok(Some(Some(sum.ok_or_else(|| self.damaged())?)))
    }

    fn damaged(&self) -> io::Error {
        io::Error::new(
            io::ErrorKind::InvalidData,
            format!("line {} does not begin with eight characters of a mark", self.number),
        )
    }

    /// Adds a line that waits for its answer, and returns its place. It is on the disk when this returns; after an error the file is
    /// as it was.
    pub(super) fn add(&mut self, line: &[u8]) -> io::Result<u64> {
        let place = self.end;
        let mut row = Vec::with_capacity(line.len() + 10);
        row.extend_from_slice(WAITS);
        row.push(b' ');
        row.extend_from_slice(line);
        row.push(b'\n');
        let written = self
            .file
            .seek(SeekFrom::Start(place))
            .and_then(|_| self.file.write_all(&row))
            .and_then(|()| self.file.sync_data());
        if let Err(error) = written {
            let _ = self.file.set_len(place);
            return Err(error);
        }
        self.end += row.len() as u64;
        Ok(place)
    }

    /// Notes the checksum of the answer to the line at a place. Needs no room, since the file stays as long as it is.
    pub(super) fn mark(&mut self, place: u64, sum: u32) -> io::Result<()> {
        self.file.seek(SeekFrom::Start(place))?;
        self.file.write_all(format!("{sum:08x}").as_bytes())
    }

    /// Takes the line at a place away again, which was added last.
    pub(super) fn take_back(&mut self, place: u64) -> io::Result<()> {
        self.end = place;
        self.file.set_len(place)
    }
}

fn head(program: &str) -> String {
    format!("intervallum {program} 1\n")
}

/// Whether this is still the file of this name.
fn is_still(path: &Path, file: &File) -> io::Result<bool> {
    #[cfg(unix)]
    {
        use std::os::unix::fs::MetadataExt;
        let (named, open) = (std::fs::metadata(path)?, file.metadata()?);
        Ok((named.dev(), named.ino()) == (open.dev(), open.ino()))
    }
    #[cfg(not(unix))]
    {
        let _ = (path, file);
        Ok(true)
    }
}

/// Writes the first line, and has the file's name on the disk.
fn begin(file: &mut File, path: &Path, head: &str) -> io::Result<()> {
    file.write_all(head.as_bytes())?;
    file.sync_all()?;
    sync_folder(path)
}

/// Has the name of a file on the disk.
pub(super) fn sync_folder(path: &Path) -> io::Result<()> {
    match path.parent() {
        Some(folder) if !folder.as_os_str().is_empty() => File::open(folder)?.sync_all(),
        _ => File::open(".")?.sync_all(),
    }
}

/// Returns where the last whole line of a file ends.
fn whole(file: &mut File) -> io::Result<u64> {
    let mut end = file.seek(SeekFrom::End(0))?;
    let mut piece = [0u8; 4096];
    while end > 0 {
        let begin = end.saturating_sub(piece.len() as u64);
        let part = &mut piece[..(end - begin) as usize];
        file.seek(SeekFrom::Start(begin))?;
        file.read_exact(part)?;
        if let Some(at) = part.iter().rposition(|byte| *byte == b'\n') {
            return Ok(begin + at as u64 + 1);
        }
        end = begin;
    }
    Ok(0)
}
