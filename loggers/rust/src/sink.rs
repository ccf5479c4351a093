use std::io::{self, Write};
use std::sync::{Mutex, MutexGuard, PoisonError};

/// The bytes of a log on their way out. What it keeps ends with a whole line, and so does each write.
pub(crate) struct Sink(Mutex<Kept>);

struct Kept {
    text: Vec<u8>,
    capacity: usize,
    to: Box<dyn Write + Send>,
    error: Option<io::Error>,
}

impl Sink {
    pub(crate) fn new(to: Box<dyn Write + Send>, capacity: usize) -> Self {
        let text = Vec::with_capacity(capacity + 1024);
        Sink(Mutex::new(Kept { text, capacity, to, error: None }))
    }

    pub(crate) fn append(&self, lines: &[u8]) {
        let mut kept = self.kept();
        kept.text.extend_from_slice(lines);
        if kept.text.len() >= kept.capacity {
            kept.put();
        }
    }

    /// Writes what is kept.
    pub(crate) fn flush(&self) {
        self.kept().put();
    }

    /// Writes what is kept. The first error of any write is given once.
    pub(crate) fn flushed(&self) -> io::Result<()> {
        let mut kept = self.kept();
        kept.put();
        kept.error.take().map_or(Ok(()), Err)
    }

    fn kept(&self) -> MutexGuard<'_, Kept> {
        self.0.lock().unwrap_or_else(PoisonError::into_inner)
    }
}

impl Kept {
    fn put(&mut self) {
        if !self.text.is_empty() && self.error.is_none() {
            let written = self.to.write_all(&self.text).and_then(|()| self.to.flush());
            self.error = written.err();
        }
        self.text.clear();
    }
}
