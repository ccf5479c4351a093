//! Threads that use a structure, each with a caller of the log and with numbers that a seed gives.

use std::{env, io, process, thread};
use vyrd_log::{Caller, Error, Header, Log, Options, Order};

/// What a program's words ask for.
pub struct Words {
    /// The structure as it is, or the mistake of a broken one.
    pub fault: String,
    specification: String,
    seed: u64,
    operations: u32,
}

impl Words {
    /// `NAME FAULT SPECIFICATION [SEED [OPERATIONS]]`, with a fault among these.
    pub fn read(faults: &[&str]) -> Self {
        let words: Vec<String> = env::args().collect();
        if !(3..=5).contains(&words.len()) || !faults.contains(&words[1].as_str()) {
            let all = faults.join(" ");
            eprintln!(
                "usage: {} FAULT SPECIFICATION [SEED [OPERATIONS]], where FAULT is one of: {all}",
                words[0]
            );
            process::exit(64);
        }
        let number = |place: usize| words.get(place).map(|word| word.parse().expect("a number"));
        Words {
            fault: words[1].clone(),
            specification: words[2].clone(),
            seed: number(3).unwrap_or(1),
            operations: number(4).map_or(100, |operations| operations as u32),
        }
    }
}

/// Numbers that a seed gives.
pub struct Random(u64);

impl Random {
    /// The next one, below `end`.
    pub fn below(&mut self, end: u64) -> u64 {
        self.0 ^= self.0 << 13;
        self.0 ^= self.0 >> 7;
        self.0 ^= self.0 << 17;
        (self.0 >> 11) % end
    }
}

/// Four threads play so many operations each, and the log on standard output ends with them.
pub fn play(
    words: &Words,
    order: Order,
    thread: impl Fn(Caller, &mut dyn Iterator<Item = u32>, Random) + Sync,
) -> Result<(), Error> {
    const THREADS: usize = 4;
    let options = Options { order, seed: Some(words.seed), ..Options::default() };
    let log = Log::new(Header::own_file(&words.specification)?, io::stdout(), options)?;
    thread::scope(|scope| {
        for _ in 0..THREADS {
            scope.spawn(|| {
                let caller = log.caller().expect("one of four callers");
                let seed = (words.seed * 64 + caller.number() as u64 + 1)
                    .wrapping_mul(0x9e37_79b9_7f4a_7c15);
                log.start_together(THREADS);
                thread(caller, &mut (0..words.operations), Random(seed));
            });
        }
    });
    log.finish()
}
