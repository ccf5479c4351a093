//! The program that judges a log, and what explains its answers.

use std::env;
use std::ffi::OsString;
use std::fmt;
use std::fs::File;
use std::io;
use std::path::{Path, PathBuf};
use std::process::{Command, Output, Stdio};

const STARTS: [&str; 3] = ["accepted: ", "violation at line ", "malformed at line "];
const EMPTY: &str = "accepted: 0 entries";

/// What the program says of a log.
pub(crate) enum Verdict {
    Accepted,
    /// Accepted, and there is no entry: its line.
    Empty(String),
    /// Its line, or what it said where it gave none.
    Not(String),
}

impl fmt::Display for Verdict {
    fn fmt(&self, to: &mut fmt::Formatter<'_>) -> fmt::Result {
        match self {
            Verdict::Accepted => to.write_str("accepted"),
            Verdict::Empty(line) | Verdict::Not(line) => to.write_str(line),
        }
    }
}

pub(crate) struct Judge {
    program: PathBuf,
    explain: PathBuf,
}

impl Judge {
    /// The program and the tool that are given, or those that the variables name.
    pub(crate) fn new(program: Option<&Path>, explain: Option<&Path>) -> Result<Self, String> {
        let named = program
            .map(Path::to_path_buf)
            .or_else(|| variable("VYRD").map(PathBuf::from))
            .ok_or("no program judges the logs: the variable VYRD or `program` is to name it")?;
        let program = found(&named).ok_or_else(|| {
            format!("the program that judges the logs can't be run: {}", named.display())
        })?;
        let explain = explain
            .map(Path::to_path_buf)
            .or_else(|| variable("VYRD_EXPLAIN").map(PathBuf::from))
            .unwrap_or_else(|| beside(&program));
        Ok(Judge { program, explain })
    }

    pub(crate) fn verdict(&self, log: &Path) -> io::Result<Verdict> {
        let done = Command::new(&self.program).arg("check").stdin(File::open(log)?).output()?;
        let line = String::from_utf8_lossy(&done.stdout).trim().to_string();
        let starts = |status: i32| STARTS.get(status as usize);
        match done.status.code() {
            Some(0) if line.starts_with(EMPTY) => Ok(Verdict::Empty(line)),
            Some(0) if line.starts_with(STARTS[0]) => Ok(Verdict::Accepted),
            Some(status) if starts(status).map_or(false, |start| line.starts_with(start)) => {
                Ok(Verdict::Not(line))
            }
            _ => Ok(Verdict::Not(self.no_verdict(&done))),
        }
    }

    /// What explains the answer to a log prints, or why it prints nothing.
    pub(crate) fn explanation(&self, log: &Path) -> String {
        if !self.explain.is_file() {
            return format!("Nothing explains it: there is no {}", self.explain.display());
        }
        let mut command = Command::new(&self.explain);
        command.arg(log).env("VYRD", &self.program).stdin(Stdio::null());
        match command.output() {
            Ok(done) => all_of(&done),
            Err(error) => format!("Nothing explains it: {error}"),
        }
    }

    fn no_verdict(&self, done: &Output) -> String {
        let program = self.program.display();
        format!("{program} gave no verdict, ended with {}, and said: {}", done.status, all_of(done))
    }
}

fn all_of(done: &Output) -> String {
    let all = [done.stdout.as_slice(), done.stderr.as_slice()].concat();
    String::from_utf8_lossy(&all).trim().to_string()
}

/// A variable that is set, and not to nothing.
fn variable(name: &str) -> Option<OsString> {
    env::var_os(name).filter(|value| !value.is_empty())
}

/// A program as a shell finds it.
fn found(named: &Path) -> Option<PathBuf> {
    if named.components().count() > 1 {
        return Some(named.to_path_buf()).filter(|path| path.is_file());
    }
    let path = env::var_os("PATH")?;
    env::split_paths(&path).map(|folder| folder.join(named)).find(|file| file.is_file())
}

fn beside(program: &Path) -> PathBuf {
    let program = program.canonicalize().unwrap_or_else(|_| program.to_path_buf());
    program.with_file_name("tools").join("explain")
}
