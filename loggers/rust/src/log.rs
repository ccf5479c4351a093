use crate::numbers::Numbers;
use crate::sink::Sink;
use crate::{watch, Error, Header, Lines};
use std::env;
use std::fs::File;
use std::io::{self, Write};
use std::path::Path;
use std::process;
use std::sync::atomic::{AtomicBool, Ordering::SeqCst};
use std::sync::{Arc, Condvar, Mutex, MutexGuard, PoisonError};
use std::thread;
use std::time::Duration;

/// What puts the steps in an order.
#[derive(Clone, Copy, Debug, Default, PartialEq, Eq)]
pub enum Order {
    /// One lock of the log's own, which is held for a step: for any program.
    #[default]
    Lock,
    /// A number from one counter, which is drawn at the end of a step, while the program's own lock
    /// keeps others away. It disturbs the threads less, and is for programs alone where each change
    /// is made, and each look taken, under a lock of the program, with its step under that lock too.
    /// Calls are logged before that lock is taken, and returns after it is given back.
    Numbers,
}

/// How a log is written.
#[derive(Clone, Debug)]
pub struct Options {
    /// What puts the steps in an order: a lock by default.
    pub order: Order,
    /// With a seed, callers yield or sleep for a moment before some of their steps, by numbers that
    /// the seed and their own number give. Without one the variable `VYRD_SEED` is the seed; where
    /// it isn't set there are no such pauses.
    pub seed: Option<u64>,
    /// How many bytes are kept before they are written: 65,536 by default.
    pub buffer: usize,
    /// Whether what is kept is written by itself too: every 20 milliseconds, at exit, and, on Unix,
    /// before a fatal signal ends the program (SIGABRT, SIGBUS, SIGFPE, SIGILL, SIGSEGV, SIGHUP,
    /// SIGINT, SIGQUIT and SIGTERM, unless the program ignores it). The handlers that were there run
    /// after that. So it is by default. It takes one thread for all logs.
    pub watched: bool,
}

impl Default for Options {
    fn default() -> Self {
        Options { order: Order::Lock, seed: None, buffer: 64 * 1024, watched: true }
    }
}

/// A log that is being written.
///
/// Dropped without [`Log::finish`], it writes what it keeps, and no `end`: a log without one says
/// that the run wasn't finished.
pub struct Log(Arc<State>);

/// What a log and its callers share.
struct State {
    step: Mutex<()>, // held for a step, where this is what orders them
    finished: AtomicBool,
    output: Arc<Output>,
    line_bytes: usize,
    seed: Option<u64>,
    in_call: Arc<[AtomicBool]>, // by the callers' numbers
    hands: Mutex<Hands>,
    all_here: Condvar,
}

/// Where the lines of steps go.
pub(crate) struct Output {
    process: u32,
    numbers: Option<Numbers>,
    sink: Sink,
}

struct Hands {
    taken: Vec<bool>,
    lost: usize,             // taken by handles that were dropped inside a call
    panicked: Option<usize>, // the first whose thread panicked with its handle
    waiting: usize,
    meetings: u64,
}

impl Log {
    /// A log in a file, which is made anew.
    ///
    /// # Errors
    ///
    /// [`Error::Io`] where the file can't be opened, and [`Error::Header`] where `VYRD_SEED` is set
    /// and no number below 2^64.
    pub fn create(header: Header, path: impl AsRef<Path>) -> Result<Self, Error> {
        Log::new(header, File::create(path)?, Options::default())
    }

    /// A log to anything that takes bytes. It is given whole lines, and needs no buffer of its own.
    ///
    /// # Errors
    ///
    /// [`Error::Header`] where there is no seed in the options, and `VYRD_SEED` is set and no number
    /// below 2^64.
    pub fn new(
        header: Header,
        to: impl Write + Send + 'static,
        options: Options,
    ) -> Result<Self, Error> {
        let seed = match options.seed {
            Some(seed) => Some(seed),
            None => seed_outside()?,
        };
        let sink = Sink::new(Box::new(to), options.buffer);
        sink.append(header.lines().as_bytes());
        let numbers = (options.order == Order::Numbers).then(|| Numbers::new(header.callers()));
        let output = Arc::new(Output { process: process::id(), numbers, sink });
        if options.watched {
            watch::add(Arc::downgrade(&output));
        }
        let taken = vec![false; header.callers()];
        let in_call = taken.iter().map(|_| AtomicBool::new(false)).collect();
        let hands = Hands { taken, lost: 0, panicked: None, waiting: 0, meetings: 0 };
        Ok(Log(Arc::new(State {
            step: Mutex::new(()),
            finished: AtomicBool::new(false),
            output,
            line_bytes: header.line_bytes(),
            seed,
            in_call,
            hands: Mutex::new(hands),
            all_here: Condvar::new(),
        })))
    }

    /// A handle for a thread, with the least number that is free.
    ///
    /// # Errors
    ///
    /// [`Error::NoCallerFree`] where all of the header's callers are handed out.
    pub fn caller(&self) -> Result<Caller, Error> {
        let mut hands = locked(&self.0.hands);
        let all = hands.taken.len();
        let free = hands.taken.iter().position(|taken| !taken);
        let number = free.ok_or(Error::NoCallerFree(all, hands.lost))?;
        hands.taken[number] = true;
        Ok(Caller::new(Arc::clone(&self.0), number))
    }

    /// Waits until `threads` threads are here, and lets them all go: a start barrier.
    pub fn start_together(&self, threads: usize) {
        let mut hands = locked(&self.0.hands);
        let meeting = hands.meetings;
        hands.waiting += 1;
        if hands.waiting >= threads {
            hands.waiting = 0;
            hands.meetings += 1;
            self.0.all_here.notify_all();
        }
        while hands.meetings == meeting {
            hands = self.0.all_here.wait(hands).unwrap_or_else(PoisonError::into_inner);
        }
    }

    /// Writes what is kept, and stays open.
    ///
    /// # Errors
    ///
    /// [`Error::Io`] where a write has failed, now or before. What came after it isn't written.
    pub fn flush(&self) -> Result<(), Error> {
        Ok(self.0.output.flushed()?)
    }

    /// Writes `end` and what is kept: once, when all calls have returned. The log takes no step
    /// after it.
    ///
    /// # Errors
    ///
    /// [`Error::Io`] where a write has failed, now or before.
    pub fn finish(self) -> Result<(), Error> {
        self.end()
    }

    /// The first caller whose thread panicked with the handle.
    pub(crate) fn panicked(&self) -> Option<usize> {
        locked(&self.0.hands).panicked
    }

    /// How many threads wait at the start barrier.
    pub(crate) fn waiting(&self) -> usize {
        locked(&self.0.hands).waiting
    }

    /// The same, of a log that others hold too.
    pub(crate) fn end(&self) -> Result<(), Error> {
        let last = locked(&self.0.step);
        self.0.finished.store(true, SeqCst);
        self.0.output.end();
        drop(last);
        self.flush()
    }
}

impl Output {
    fn add(&self, caller: usize, lines: &[u8]) {
        match &self.numbers {
            Some(numbers) => numbers.add(caller, lines, &self.sink),
            None => self.sink.append(lines),
        }
    }

    fn end(&self) {
        self.merge();
        self.sink.append(b"end\n");
    }

    /// Writes what is kept. A forked process has a copy of what its parent keeps, and leaves it to
    /// the parent.
    pub(crate) fn flush(&self) {
        if process::id() != self.process {
            return;
        }
        self.merge();
        self.sink.flush();
    }

    fn flushed(&self) -> io::Result<()> {
        self.merge();
        self.sink.flushed()
    }

    fn merge(&self) {
        if let Some(numbers) = &self.numbers {
            numbers.merge(&self.sink);
        }
    }
}

impl Drop for Log {
    fn drop(&mut self) {
        self.0.output.flush();
    }
}

impl Drop for State {
    fn drop(&mut self) {
        self.output.flush();
    }
}

/// One caller of a log, for one thread at a time.
///
/// Its number is given back when it is dropped, and may then be that of another thread; so drop it
/// when its last call has returned. Inside a call its number is kept, so that no other thread is
/// blamed.
pub struct Caller {
    state: Arc<State>,
    number: usize,
    lines: Lines,
    draw: u64, // 0: no pauses
}

impl Caller {
    fn new(state: Arc<State>, number: usize) -> Self {
        let spread = |seed: u64| seed.wrapping_mul(0x9e37_79b9_7f4a_7c15) ^ (2 * number as u64 + 1);
        let draw = state.seed.map_or(0, |seed| spread(seed).max(1));
        let lines = Lines::new(number, state.line_bytes, Arc::clone(&state.in_call));
        Caller { state, number, lines, draw }
    }

    /// Its number, from 0 on and below the header's callers.
    pub fn number(&self) -> usize {
        self.number
    }

    /// Calls `action` with the step's lines, and gives back what it gives. No step of another caller
    /// takes place meanwhile, so put no more than one change into it, and nothing that waits: no
    /// step of another caller of this thread either, which would wait for ever.
    ///
    /// # Panics
    ///
    /// After [`Log::finish`], and where `action` does. The lines that it has added stay.
    pub fn step<R>(&mut self, action: impl FnOnce(&mut Lines) -> R) -> R {
        self.pause();
        let state = &*self.state;
        let _alone = state.output.numbers.is_none().then(|| locked(&state.step));
        assert!(!state.finished.load(SeqCst), "a step of a log that is finished");
        let step = Step { caller: self.number, lines: &mut self.lines, output: &state.output };
        action(step.lines)
    }

    /// A call, in a step of its own, before the method does anything. See [`Lines::call`].
    ///
    /// # Panics
    ///
    /// As [`Caller::step`].
    pub fn call(&mut self, method: &str, arguments: &[u64]) {
        self.step(|lines| lines.call(method, arguments));
    }

    /// A return, in a step of its own, after the method has done all.
    ///
    /// # Panics
    ///
    /// As [`Caller::step`].
    pub fn returns(&mut self, reply: u64) {
        self.step(|lines| lines.returns(reply));
    }

    /// A commit in a step of its own, for an operation that takes effect without a change.
    ///
    /// # Panics
    ///
    /// As [`Caller::step`].
    pub fn commit(&mut self) {
        self.step(|lines| lines.commit());
    }

    fn pause(&mut self) {
        if self.draw == 0 {
            return;
        }
        self.draw ^= self.draw << 13;
        self.draw ^= self.draw >> 7;
        self.draw ^= self.draw << 17;
        if self.draw % 256 == 0 {
            thread::sleep(Duration::from_micros(self.draw / 256 % 100));
        } else if self.draw % 8 == 0 {
            thread::yield_now();
        }
    }
}

impl Drop for Caller {
    fn drop(&mut self) {
        let lost = self.state.in_call[self.number].load(SeqCst);
        let mut hands = locked(&self.state.hands);
        hands.taken[self.number] = lost;
        hands.lost += usize::from(lost);
        if thread::panicking() {
            hands.panicked.get_or_insert(self.number);
        }
    }
}

/// A step under way: its lines are written at its end, also where the action panics.
struct Step<'a> {
    caller: usize,
    lines: &'a mut Lines,
    output: &'a Output,
}

impl Drop for Step<'_> {
    fn drop(&mut self) {
        self.output.add(self.caller, self.lines.text());
        self.lines.clear(self.caller);
    }
}

/// A lock, whoever panicked with it: what it guards is whole at all times.
fn locked<T>(lock: &Mutex<T>) -> MutexGuard<'_, T> {
    lock.lock().unwrap_or_else(PoisonError::into_inner)
}

fn seed_outside() -> Result<Option<u64>, Error> {
    match env::var_os("VYRD_SEED") {
        None => Ok(None),
        Some(text) => match text.to_str().map(str::parse) {
            Some(Ok(seed)) => Ok(Some(seed)),
            _ => Err(Error::Header("VYRD_SEED isn't a number below 2^64".to_string())),
        },
    }
}
