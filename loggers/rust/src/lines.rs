use std::panic::Location;
use std::sync::atomic::{AtomicBool, Ordering::SeqCst};
use std::sync::Arc;

/// The most bytes of a line, without its line feed.
pub(crate) const LINE_BYTES: usize = 64;
/// The same in a log of version 3.
pub(crate) const OWN_LINE_BYTES: usize = 200;

/// The lines of one step. They stand in the log one after the other.
///
/// # Panics
///
/// A number that a log can't hold panics, as does a line that would have more than 64 bytes, or in
/// version 3 more than 200; that line isn't written. All else is for `vyrd check` to judge.
#[derive(Debug)]
pub struct Lines {
    text: Vec<u8>,
    caller: usize,
    most: usize,                // bytes of a line
    in_call: Arc<[AtomicBool]>, // the log's, by the callers' numbers
}

impl Lines {
    pub(crate) fn new(caller: usize, most: usize, in_call: Arc<[AtomicBool]>) -> Self {
        Lines { text: Vec::with_capacity(512), caller, most, in_call }
    }

    /// `call METHOD ARGUMENTS`: arguments are below 2^32.
    ///
    /// In the step of an action whose outcome says which method it was, or its arguments, call and
    /// return may stand side by side, and lines of several calls too.
    pub fn call(&mut self, method: &str, arguments: &[u64]) {
        let within = |argument: &u64| within("an argument", *argument, u64::from(u32::MAX));
        arguments.iter().for_each(within);
        self.line(|text| {
            text.extend_from_slice(b"call ");
            text.extend_from_slice(method.as_bytes());
            arguments.iter().for_each(|argument| number(text, *argument));
        });
    }

    /// `return REPLY`: a reply is any number, in version 3 below `u64::MAX`, and `u64::from(true)`
    /// is 1.
    pub fn returns(&mut self, reply: u64) {
        let own = self.most == OWN_LINE_BYTES;
        within("a reply", reply, u64::MAX - u64::from(own));
        self.line(|text| {
            text.extend_from_slice(b"return");
            number(text, reply);
        });
    }

    /// `write WORD VALUE`: the word is one of the subject's, and the value below 2^63.
    pub fn write(&mut self, word: u32, value: u64) {
        within("a value", value, i64::MAX as u64);
        self.line(|text| {
            text.extend_from_slice(b"write");
            number(text, u64::from(word));
            number(text, value);
        });
    }

    /// `commit`: the operation takes effect here.
    pub fn commit(&mut self) {
        self.entry("commit");
    }

    /// `open`: writes that take effect together begin.
    pub fn open(&mut self) {
        self.entry("open");
    }

    /// `close`: they end.
    pub fn close(&mut self) {
        self.entry("close");
    }

    /// `close commit`: they end, and the operation takes effect with them.
    pub fn close_commit(&mut self) {
        self.entry("close commit");
    }

    /// An observer whole, its call and its return side by side: it is judged at this one place.
    pub fn observed(&mut self, method: &str, arguments: &[u64], reply: u64) {
        self.call(method, arguments);
        self.returns(reply);
    }

    /// `# WORDS`, in a log of version 3: it says nothing to `vyrd check`.
    ///
    /// # Panics
    ///
    /// In a log of another version, and where the words have a line feed.
    pub fn note(&mut self, words: &str) {
        assert!(self.most == OWN_LINE_BYTES, "notes are of version 3");
        assert!(!words.contains('\n'), "a note has one line");
        let begin = self.text.len();
        self.text.extend_from_slice(b"# ");
        self.text.extend_from_slice(words.as_bytes());
        self.end_line(begin);
    }

    /// A note of the place in the source that calls it, as `# queue.rs:61`.
    ///
    /// # Panics
    ///
    /// As [`Lines::note`].
    #[track_caller]
    pub fn here(&mut self) {
        let place = Location::caller();
        let file = place.file().rsplit(['/', '\\']).next().unwrap_or_default();
        self.note(&format!("{file}:{}", place.line()));
    }

    /// An entry as it is, without the caller's number: for a form that this crate doesn't know.
    pub fn entry(&mut self, words: &str) {
        self.line(|text| text.extend_from_slice(words.as_bytes()));
    }

    /// Adds the lines of `body` as those of another caller, whose operation this step completes.
    /// `caller` is its number.
    pub fn helping(&mut self, caller: usize, body: impl FnOnce(&mut Lines)) {
        let own = std::mem::replace(&mut self.caller, caller);
        body(self);
        self.caller = own;
    }

    pub(crate) fn text(&self) -> &[u8] {
        &self.text
    }

    /// No lines, of this caller.
    pub(crate) fn clear(&mut self, caller: usize) {
        self.text.clear();
        self.caller = caller;
    }

    fn line(&mut self, words: impl FnOnce(&mut Vec<u8>)) {
        let begin = self.text.len();
        digits(&mut self.text, self.caller as u64);
        self.text.push(b' ');
        let entry = self.text.len();
        words(&mut self.text);
        self.end_line(begin);
        let begins = self.text[entry..].starts_with(b"call ");
        if begins || self.text[entry..].starts_with(b"return") {
            if let Some(in_call) = self.in_call.get(self.caller) {
                in_call.store(begins, SeqCst);
            }
        }
    }

    fn end_line(&mut self, begin: usize) {
        if self.text.len() - begin > self.most {
            let line = String::from_utf8_lossy(&self.text[begin..]).into_owned();
            self.text.truncate(begin);
            panic!("a line of a log has more than {} bytes: {line}", self.most);
        }
        self.text.push(b'\n');
    }
}

fn within(what: &str, number: u64, most: u64) {
    assert!(number <= most, "{what} is from 0 to {most}, and not {number}");
}

fn number(text: &mut Vec<u8>, value: u64) {
    text.push(b' ');
    digits(text, value);
}

fn digits(text: &mut Vec<u8>, mut value: u64) {
    let mut all = [0; 20]; // as many as the greatest value has
    let mut first = all.len();
    loop {
        first -= 1;
        all[first] = b'0' + (value % 10) as u8;
        value /= 10;
        if value == 0 {
            break;
        }
    }
    text.extend_from_slice(&all[first..]);
}
