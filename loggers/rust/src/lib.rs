//! Writes the log of a concurrent program, which `vyrd check` judges.
//!
//! ```
//! use vyrd_log::{Header, Log};
//!
//! # fn main() -> Result<(), vyrd_log::Error> {
//! # let path = std::env::temp_dir().join(format!("vyrd_log_{}", std::process::id()));
//! let log = Log::create(Header::new(1, "multiset", 1, 2)?, &path)?;
//! let mut caller = log.caller()?; // one for each thread
//! let mut slot = 0;
//! caller.call("insert", &[5]);
//! caller.step(|lines| {
//!     slot = 5; // what the program does, and the lines that tell of it, are one step
//!     lines.write(1, slot);
//! });
//! caller.step(|lines| {
//!     lines.write(0, 2);
//!     lines.commit();
//! });
//! caller.returns(1);
//! drop(caller);
//! log.finish()?;
//! # std::fs::remove_file(&path)?;
//! # Ok(())
//! # }
//! ```
//!
//! The steps of all callers take place one after the other, under one lock, so the lines stand in
//! the order in which the program did what they tell of. Where the program has a lock round each
//! change and each look, [`Order::Numbers`] does without this one.
//!
//! What is kept in the buffer is written every 20 milliseconds too, at exit, and, on Unix, before a
//! fatal signal ends the program. Each write ends with a whole line. So a program that hangs, or
//! that ends in another way than by [`Log::finish`], leaves a log that `vyrd check` can read.
//!
//! In a test, [`check_runs`] makes many runs and lets `vyrd check` judge each log.

#![warn(missing_docs)]

mod check;
mod header;
mod judge;
mod lines;
mod log;
mod numbers;
mod sink;
mod watch;

pub use crate::check::{check_runs, CheckRuns};
pub use crate::header::Header;
pub use crate::lines::Lines;
pub use crate::log::{Caller, Log, Options, Order};

use std::fmt;
use std::io;

/// Why a log can't be opened, written or used.
#[derive(Debug)]
#[non_exhaustive]
pub enum Error {
    /// A header that no log has, or a seed in `VYRD_SEED` that is no number: the sentence says why.
    Header(String),
    /// All callers of the header are handed out; this is how many there are, and how many of them
    /// are kept since they were dropped inside a call.
    NoCallerFree(usize, usize),
    /// The file can't be opened, or a write has failed.
    Io(io::Error),
}

impl fmt::Display for Error {
    fn fmt(&self, to: &mut fmt::Formatter<'_>) -> fmt::Result {
        match self {
            Error::Header(why) => to.write_str(why),
            Error::NoCallerFree(all, lost) => {
                write!(to, "no caller is free: all {all} of the header are handed out")?;
                match lost {
                    0 => Ok(()),
                    _ => write!(to, " (dropped inside a call: {lost})"),
                }
            }
            Error::Io(error) => write!(to, "the log can't be written: {error}"),
        }
    }
}

impl std::error::Error for Error {
    fn source(&self) -> Option<&(dyn std::error::Error + 'static)> {
        match self {
            Error::Io(error) => Some(error),
            _ => None,
        }
    }
}

impl From<io::Error> for Error {
    fn from(error: io::Error) -> Self {
        Error::Io(error)
    }
}
