//! What a step costs: nanoseconds of each step and its line, with the log and without it.
//!
//!     overhead THREADS STEPS

use std::sync::atomic::{AtomicU64, Ordering::SeqCst};
use std::time::Instant;
use std::{env, io, process, thread};
use vyrd_log::{Header, Log, Options, Order};

/// A change of the program: a store to a word that all threads share.
static WORD: AtomicU64 = AtomicU64::new(0);

fn nanoseconds_of_a_step(threads: usize, steps: u64, body: impl Fn() + Sync) -> f64 {
    let begin = Instant::now();
    thread::scope(|scope| {
        for _ in 0..threads {
            scope.spawn(&body);
        }
    });
    begin.elapsed().as_nanos() as f64 / (threads as u64 * steps) as f64
}

fn main() -> Result<(), vyrd_log::Error> {
    let numbers: Vec<u64> = env::args().skip(1).filter_map(|word| word.parse().ok()).collect();
    if numbers.len() != 2 {
        eprintln!("usage: overhead THREADS STEPS");
        process::exit(64);
    }
    let (threads, steps) = (numbers[0] as usize, numbers[1]);
    let without =
        nanoseconds_of_a_step(threads, steps, || (0..steps).for_each(|m| WORD.store(m, SeqCst)));
    print!("Rust, {threads} threads: {without:.0} ns a step without the log");
    for (order, with) in [(Order::Lock, "its lock"), (Order::Numbers, "numbers")] {
        let header = Header::new(1, "multiset", 1, threads)?;
        let log = Log::new(header, io::sink(), Options { order, ..Options::default() })?;
        let took = nanoseconds_of_a_step(threads, steps, || {
            let mut caller = log.caller().expect("a caller for each thread");
            for m in 0..steps {
                caller.step(|lines| {
                    WORD.store(m, SeqCst);
                    lines.write(1, m);
                });
            }
        });
        print!(", {took:.0} ns with it by {with}");
    }
    println!();
    Ok(())
}
