use crate::lines::{LINE_BYTES, OWN_LINE_BYTES};
use crate::Error;
use std::fmt::Write;
use std::fs;
use std::path::Path;

const SUBJECTS: [&str; 4] = ["multiset", "cache", "tree", "buffers"];

/// The first lines of a log.
#[derive(Clone, Debug)]
pub struct Header {
    first: String,
    callers: usize,
    start: Vec<(u32, u64)>,
    version: u32, // 0: of a text
}

impl Header {
    /// `vyrd VERSION SUBJECT SIZE CALLERS`.
    ///
    /// The version is 1 or 2, the subject `multiset`, `cache`, `tree` or `buffers`, the size from 1
    /// to 1,024, and the callers are from 1 to 64.
    ///
    /// # Errors
    ///
    /// [`Error::Header`] where one is none of these.
    pub fn new(version: u32, subject: &str, size: u32, callers: usize) -> Result<Self, Error> {
        let refused = |why: &str| Err(Error::Header(why.to_string()));
        if !(1..=2).contains(&version) {
            return refused("the version of a log is 1 or 2");
        }
        if !SUBJECTS.contains(&subject) {
            return refused(&format!("no subject of a log: {subject}"));
        }
        if !(1..=1024).contains(&size) {
            return refused("the size of a log is from 1 to 1,024");
        }
        if !(1..=64).contains(&callers) {
            return refused("the callers of a log are from 1 to 64");
        }
        let first = format!("vyrd {version} {subject} {size} {callers}\n");
        Ok(Header { first, callers, start: Vec::new(), version })
    }

    /// A header of version 2, with the words that aren't 0 where the log begins.
    ///
    /// Pairs of a word and its value come in any order, and those of a value 0 are left out.
    ///
    /// # Errors
    ///
    /// As [`Header::new`]; and [`Error::Header`] where a word has two values.
    pub fn with_start(
        subject: &str,
        size: u32,
        callers: usize,
        start: impl IntoIterator<Item = (u32, u64)>,
    ) -> Result<Self, Error> {
        Header::new(2, subject, size, callers)?.and_start(start)
    }

    /// A header of version 3: a specification of your own, which stands in front of the log.
    ///
    /// It is the text of a file `.spec`, from the line `vyrd 3 own WORDS CALLERS` to the line `log`.
    /// There are up to 65,536 words, and from 1 to 256 callers. What stands between the two lines is
    /// for `vyrd check` to judge.
    ///
    /// # Errors
    ///
    /// [`Error::Header`] where the first line or the last one is another.
    pub fn own(specification: &str) -> Result<Self, Error> {
        let end = if specification.ends_with('\n') { "" } else { "\n" };
        let text = format!("{specification}{end}");
        let callers = text.split('\n').next().and_then(callers_of);
        let ends = text.ends_with("\nlog\n");
        if text.contains("\r\n") && !(callers.is_some() && ends) {
            let line = "a line of the specification ends with a carriage return";
            return Err(Error::Header(format!("{line}: lines end with a line feed alone")));
        }
        let callers = callers.ok_or_else(|| {
            let line = "a specification begins with the line `vyrd 3 own WORDS CALLERS`";
            Error::Header(format!("{line}, with up to 65,536 words and from 1 to 256 callers"))
        })?;
        if !ends {
            return Err(Error::Header("a specification ends with the line `log`".to_string()));
        }
        Ok(Header { first: text, callers, start: Vec::new(), version: 3 })
    }

    /// As [`Header::own`], with the path of the file.
    ///
    /// # Errors
    ///
    /// As [`Header::own`]; and [`Error::Header`] where the file can't be read.
    pub fn own_file(path: impl AsRef<Path>) -> Result<Self, Error> {
        let path = path.as_ref();
        let unread = |error| Error::Header(format!("can't read {}: {error}", path.display()));
        Header::own(&fs::read_to_string(path).map_err(unread)?)
    }

    /// The same header with the words that aren't 0 where the log begins, as [`Header::with_start`]
    /// has them: for version 3.
    ///
    /// # Errors
    ///
    /// [`Error::Header`] where a word has two values, or where the version is neither 2 nor 3.
    pub fn and_start(mut self, start: impl IntoIterator<Item = (u32, u64)>) -> Result<Self, Error> {
        if self.version < 2 {
            let sentence = "words at the start are of versions 2 and 3";
            return Err(Error::Header(sentence.to_string()));
        }
        self.start.extend(start);
        self.start.sort_unstable();
        match self.start.windows(2).find(|pair| pair[0].0 == pair[1].0) {
            Some(pair) => {
                Err(Error::Header(format!("two values of word {} at the start", pair[0].0)))
            }
            None => Ok(self),
        }
    }

    /// Lines for the log to begin with as they are, for a header that this crate doesn't know.
    /// `callers` is how many handles the log hands out at a time, from 1 on.
    ///
    /// # Errors
    ///
    /// [`Error::Header`] where there are no lines or no callers.
    pub fn text(lines: &str, callers: usize) -> Result<Self, Error> {
        if lines.is_empty() {
            return Err(Error::Header("a log has a header".to_string()));
        }
        if callers == 0 {
            return Err(Error::Header("the callers of a log are from 1 on".to_string()));
        }
        let end = if lines.ends_with('\n') { "" } else { "\n" };
        Ok(Header { first: format!("{lines}{end}"), callers, start: Vec::new(), version: 0 })
    }

    /// How many callers there are: their numbers are below this.
    pub fn callers(&self) -> usize {
        self.callers
    }

    /// The lines, each with its line feed.
    pub fn lines(&self) -> String {
        let mut text = self.first.clone();
        for (word, value) in self.start.iter().filter(|(_, value)| *value != 0) {
            writeln!(text, "start {word} {value}").expect("a string takes all");
        }
        text
    }

    /// How many bytes a line of the log may have.
    pub(crate) fn line_bytes(&self) -> usize {
        if self.version == 3 {
            OWN_LINE_BYTES
        } else {
            LINE_BYTES
        }
    }
}

/// How many callers the first line of a specification has, if it is one. It is compared with its one
/// spelling, so nothing else is taken for a header.
fn callers_of(line: &str) -> Option<usize> {
    let (words, callers) = line.strip_prefix("vyrd 3 own ")?.split_once(' ')?;
    let (words, callers): (u32, usize) = (words.parse().ok()?, callers.parse().ok()?);
    let is_header = line == format!("vyrd 3 own {words} {callers}");
    (is_header && words <= 65_536 && (1..=256).contains(&callers)).then_some(callers)
}
