//! What the programs with a correct and a broken structure share, and the tests with them.
#![allow(dead_code)] // each uses a part

pub mod multiset;

use std::sync::mpsc;
use std::{env, io, process, thread};
use vyrd_log::{Caller, Error, Header, Log, Options, Order};

/// How the threads of a run play.
#[derive(Clone, Copy)]
pub struct Run {
    /// Whether the structure is the broken one.
    pub racing: bool,
    /// Gives the operations.
    pub seed: u64,
    /// How many there are for each thread.
    pub operations: u64,
}

/// Numbers that a seed and a caller's number give.
pub struct Draws(u32);

impl Draws {
    pub fn of(caller: &Caller, seed: u64) -> Self {
        Draws(64 * seed as u32 + caller.number() as u32 + 1)
    }

    pub fn next(&mut self) -> u32 {
        self.0 ^= self.0 << 13;
        self.0 ^= self.0 >> 17;
        self.0 ^= self.0 << 5;
        self.0
    }
}

/// Each of so many threads plays, with a caller of its own.
pub fn together(log: &Log, threads: usize, play: impl Fn(&mut Caller) + Sync) {
    thread::scope(|scope| {
        for _ in 0..threads {
            scope.spawn(|| {
                let mut caller = log.caller().expect("a caller for each thread");
                log.start_together(threads);
                play(&mut caller);
            });
        }
    });
}

/// Caller 0 does `first` up to where that calls what it is given. Then caller 1 does `second` whole,
/// and caller 0 goes on.
pub fn interrupted(
    log: &Log,
    first: impl FnOnce(&mut Caller, &dyn Fn()) + Send,
    second: impl FnOnce(&mut Caller),
) {
    let mut zero = log.caller().expect("a first caller");
    let mut one = log.caller().expect("a second caller");
    let (looked, after_the_look) = mpsc::channel();
    let (done, after_the_second) = mpsc::channel();
    thread::scope(|scope| {
        scope.spawn(move || {
            first(&mut zero, &|| {
                looked.send(()).unwrap();
                after_the_second.recv().unwrap();
            });
        });
        after_the_look.recv().unwrap();
        second(&mut one);
        done.send(()).unwrap();
    });
}

/// The path of a specification after the program's word, if there is one.
#[allow(dead_code)] // not every example takes one
pub fn specification() -> Option<String> {
    env::args().nth(2).filter(|word| word.ends_with(".spec"))
}

/// Does what the program's words ask for, with its log on standard output: a run of four callers, or
/// a broken one of two whose order is forced.
pub fn run_by_word(
    name: &str,
    header: impl Fn(usize) -> Result<Header, Error>,
    play: impl Fn(&Log, usize, Run),
    broken: impl Fn(&Log),
) -> Result<(), Error> {
    let words: Vec<String> = env::args().skip(1).filter(|word| !word.ends_with(".spec")).collect();
    let number = |place: usize| words.get(place).map(|word| word.parse().expect("a number"));
    let (order, callers) = match words.first().map_or("", String::as_str) {
        "correct" | "racing" => (Order::Lock, 4),
        "numbered" => (Order::Numbers, 4),
        "broken" => (Order::Lock, 2),
        _ => {
            eprintln!("usage: {name} correct | numbered | broken | racing [SEED [OPERATIONS]]");
            process::exit(64);
        }
    };
    let options = Options { order, ..Options::default() };
    let log = Log::new(header(callers)?, io::stdout(), options)?;
    if words[0] == "broken" {
        broken(&log);
    } else {
        let (seed, operations) = (number(1).unwrap_or(7), number(2).unwrap_or(500));
        play(&log, callers, Run { racing: words[0] == "racing", seed, operations });
    }
    log.finish()
}
