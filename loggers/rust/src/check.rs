//! Many runs of a body in a test, and what `vyrd check` says of their logs.

use crate::judge::{Judge, Verdict};
use crate::{Header, Log, Options};
use std::any::Any;
use std::env;
use std::fs::{self, File};
use std::io;
use std::path::{Path, PathBuf};
use std::process;
use std::sync::mpsc::{self, RecvTimeoutError};
use std::sync::Arc;
use std::thread;
use std::time::Duration;

/// What [`check_runs`] is asked for.
#[derive(Clone, Debug)]
pub struct CheckRuns {
    /// The first lines of each log.
    pub header: Header,
    /// How many runs there are: 20 by default.
    pub runs: u64,
    /// The first run's seed, by default 1. The next runs have the numbers after it.
    pub seed: u64,
    /// How long the body may take: 60 seconds by default.
    pub time: Duration,
    /// How the logs are written. Their seed is the run's.
    pub log: Options,
    /// The folder of the logs. By default it is a new one in the system's folder for temporary
    /// files.
    pub folder: Option<PathBuf>,
    /// The program that judges. By default the variable `VYRD` names it.
    pub program: Option<PathBuf>,
    /// What says more of a log that isn't accepted. By default the variable `VYRD_EXPLAIN` names
    /// it, or else it is `tools/explain` beside the program.
    pub explain: Option<PathBuf>,
}

impl CheckRuns {
    /// What is asked by default, of logs with this header.
    pub fn of(header: Header) -> Self {
        CheckRuns {
            header,
            runs: 20,
            seed: 1,
            time: Duration::from_secs(60),
            log: Options::default(),
            folder: None,
            program: None,
            explain: None,
        }
    }
}

/// Calls the body in many runs, each with a seed and a log of its own, and lets the program judge
/// each log. For a `#[test]`.
///
/// The body waits for the threads that it starts, and doesn't finish the log: that is done when it
/// has returned. What a thread panics with while it has a caller counts as the body's panic; of
/// others the body is to unwrap what `join` gives. A log that is accepted is removed.
///
/// ```no_run
/// use vyrd_log::{check_runs, CheckRuns, Header};
///
/// let header = Header::new(1, "multiset", 1, 4).unwrap();
/// check_runs(CheckRuns { runs: 100, ..CheckRuns::of(header) }, |seed, log| {
///     // makes the structure, and lets threads use it; each thread has a caller of the log
/// });
/// ```
///
/// # Panics
///
/// At the first run whose log isn't accepted or has no entry, whose body panics, or whose body
/// hasn't returned in time. It says where the log is kept, which is judged as it is. A body that
/// doesn't return goes on in its thread. It panics too if the program can't be run, or if a log
/// can't be written.
#[track_caller]
pub fn check_runs(asked: CheckRuns, body: impl Fn(u64, &Log) + Send + Sync + 'static) {
    if let Err(sentence) = all_runs(&asked, Arc::new(body)) {
        panic!("{sentence}");
    }
}

type Body = dyn Fn(u64, &Log) + Send + Sync;

fn all_runs(asked: &CheckRuns, body: Arc<Body>) -> Result<(), String> {
    let judge = Judge::new(asked.program.as_deref(), asked.explain.as_deref())?;
    let folder = made(asked.folder.as_deref()).map_err(|error| format!("no folder: {error}"))?;
    for number in 0..asked.runs {
        let seed = asked.seed.wrapping_add(number);
        let path = folder.join(format!("{seed}.log"));
        one_run(asked, &judge, seed, &path, Arc::clone(&body)).map_err(|sentence| {
            format!("run {} of {}, with seed {seed}: {sentence}", number + 1, asked.runs)
        })?;
    }
    if asked.folder.is_none() {
        let _ = fs::remove_dir(folder); // what somebody has put into it stays
    }
    Ok(())
}

fn one_run(
    asked: &CheckRuns,
    judge: &Judge,
    seed: u64,
    path: &Path,
    body: Arc<Body>,
) -> Result<(), String> {
    let options = Options { seed: Some(seed), ..asked.log.clone() };
    let log = File::create(path)
        .map_err(crate::Error::from)
        .and_then(|file| Log::new(asked.header.clone(), file, options))
        .map_err(|error| error.to_string())?;
    let ended = play(Arc::new(log), seed, asked.time, body);
    let verdict = judge.verdict(path).map_err(|error| error.to_string())?;
    match (ended, verdict) {
        (Ok(()), Verdict::Accepted) => fs::remove_file(path).map_err(|error| error.to_string()),
        (ended, verdict) => {
            let empty = matches!(verdict, Verdict::Empty(_)).then(|| "the run logged nothing");
            let fault = ended.err().or(empty.map(String::from));
            let fault = fault.map_or_else(String::new, |fault| format!("{fault}; "));
            let log = format!("The log is kept: {}", path.display());
            Err(format!("{fault}{verdict}\n{log}\n\n{}", judge.explanation(path)))
        }
    }
}

/// Calls the body in a thread of its own, and finishes the log where it returns in time.
fn play(log: Arc<Log>, seed: u64, time: Duration, body: Arc<Body>) -> Result<(), String> {
    let (ended, end) = mpsc::channel::<()>();
    let shared = Arc::clone(&log);
    let thread = thread::Builder::new().name(format!("seed {seed}")).spawn(move || {
        let _ended = ended; // dropped at the end, also where the body panics
        body(seed, &shared);
    });
    let thread = thread.map_err(|error| format!("no thread: {error}"))?;
    let in_time = end.recv_timeout(time) != Err(RecvTimeoutError::Timeout);
    let of_caller = log.panicked().map(|number| format!("the thread of caller {number} panicked"));
    let written = if !in_time {
        let _ = log.flush();
        let mut late = format!("the body hasn't returned after {} seconds", time.as_secs_f64());
        if log.waiting() > 0 {
            late += &format!("; threads that wait at the start barrier: {}", log.waiting());
        }
        let of_caller = of_caller.map_or_else(String::new, |of_caller| format!("; {of_caller}"));
        return Err(late + &of_caller);
    } else if let Err(panicked) = thread.join() {
        let _ = log.flush();
        return Err(format!("the body panicked: {}", said(panicked.as_ref())));
    } else if let Some(of_caller) = of_caller {
        let _ = log.flush();
        return Err(of_caller);
    } else {
        log.end()
    };
    written.map_err(|error| error.to_string())
}

fn said(panicked: &(dyn Any + Send)) -> &str {
    let text = panicked.downcast_ref::<String>().map(String::as_str);
    text.or_else(|| panicked.downcast_ref::<&str>().copied()).unwrap_or("with no text")
}

/// The folder, or a new one in that for temporary files.
fn made(folder: Option<&Path>) -> io::Result<PathBuf> {
    if let Some(folder) = folder {
        return fs::create_dir_all(folder).map(|()| folder.to_path_buf());
    }
    let mut number = 0;
    loop {
        let new = env::temp_dir().join(format!("vyrd_{}_{number}", process::id()));
        match fs::create_dir(&new) {
            Err(error) if error.kind() == io::ErrorKind::AlreadyExists => number += 1,
            made => return made.map(|()| new),
        }
    }
}
