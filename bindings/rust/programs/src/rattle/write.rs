//! A buffer before a writer. As that of std, but its allocation may fail.
use ::intervallum::rattle::alloc::{AllocError, Global};
use ::std::io::{self, Write};

const CAPACITY: usize = 8192;

/// A writer that gives bytes on when so many wait, when it is flushed, and when it is dropped.
pub struct BufWriter<W: Write> {
    inner: W,
    // never grows
    waiting: Vec<u8>,
}

impl<W: Write> BufWriter<W> {
    /// Returns a writer before another. Fails only if allocation fails.
    pub fn new(_alloc: Global, inner: W) -> Result<Self, AllocError> {
        let mut waiting = Vec::new();
        waiting.try_reserve_exact(CAPACITY).map_err(|_| AllocError)?;
        Ok(BufWriter { inner, waiting })
    }

    /// Gives on what waits. What a failure leaves unwritten stays.
    fn give(&mut self) -> io::Result<()> {
        let mut written = 0;
        let ended = loop {
            if written == self.waiting.len() {
                break Ok(());
            }
            match self.inner.write(&self.waiting[written..]) {
                Ok(0) => break Err(io::ErrorKind::WriteZero.into()),
                Ok(count) => written += count,
                Err(error) if error.kind() == io::ErrorKind::Interrupted => {}
                Err(error) => break Err(error),
            }
        };
        self.waiting.drain(..written);
        ended
    }
}

impl<W: Write> Write for BufWriter<W> {
    #[inline]
    fn write(&mut self, bytes: &[u8]) -> io::Result<usize> {
        self.write_all(bytes)?;
        Ok(bytes.len())
    }

    #[inline]
    fn write_all(&mut self, bytes: &[u8]) -> io::Result<()> {
        if bytes.len() > CAPACITY - self.waiting.len() {
            self.give()?;
            if bytes.len() >= CAPACITY {
                return self.inner.write_all(bytes);
            }
        }
        self.waiting.extend_from_slice(bytes);
        Ok(())
    }

    fn flush(&mut self) -> io::Result<()> {
        self.give()?;
        self.inner.flush()
    }
}

impl<W: Write> Drop for BufWriter<W> {
    fn drop(&mut self) {
        let _ = self.give();
    }
}
