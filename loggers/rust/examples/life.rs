//! A program that ends in the way that its first word says, with a log in the file of its second.
//!
//!     life finish | leave | exit | panic | abort | fault | fault_in_step | overflow | terminate | handled | hang FILE

use std::{env, process, ptr, thread, time::Duration};
use vyrd_log::{Header, Log};

extern "C" {
    fn raise(number: i32) -> i32;
    fn signal(number: i32, handler: extern "C" fn(i32)) -> usize;
    fn _exit(status: i32) -> !;
}

extern "C" fn handle(_: i32) {
    // SAFETY: it may be called in a handler.
    unsafe { _exit(7) }
}

fn fault() {
    // SAFETY: none: this is to fail.
    unsafe { ptr::null_mut::<u8>().wrapping_add(env::args().count()).write_volatile(1) };
}

/// Takes all of the stack.
#[allow(unconditional_recursion)]
fn overflow(depth: u64) -> u64 {
    // SAFETY: what is read is there.
    let room = unsafe { ptr::read_volatile(&[depth; 100]) };
    overflow(depth + 1) + room[depth as usize % 100]
}

fn main() -> Result<(), vyrd_log::Error> {
    let words: Vec<String> = env::args().collect();
    let (way, path) = match words.as_slice() {
        [_, way, path] => (way, path),
        _ => {
            eprintln!("usage: life WAY FILE");
            process::exit(64);
        }
    };
    if way == "handled" {
        // SAFETY: a plain call, before the log is opened; 15 is SIGTERM.
        unsafe { signal(15, handle) };
    }
    let log = Log::create(Header::new(1, "multiset", 1, 2)?, path)?;
    let (mut first, mut second) = (log.caller()?, log.caller()?);
    first.call("insert", &[5]);
    first.step(|lines| lines.write(1, 5));
    first.step(|lines| {
        lines.write(0, 2);
        lines.commit();
    });
    first.returns(1);
    second.call("lookup", &[5]);
    match way.as_str() {
        "finish" => {
            second.returns(1);
            log.finish()?;
        }
        "exit" => process::exit(3),
        "panic" => panic!("by the test"),
        "abort" => process::abort(),
        "fault" => fault(),
        "overflow" => println!("{}", overflow(1)),
        "fault_in_step" => second.step(|_| fault()),
        "terminate" | "handled" => {
            // SAFETY: a plain call; 15 is SIGTERM.
            unsafe { raise(15) };
            thread::sleep(Duration::from_secs(60));
        }
        "hang" => second.step(|_| thread::sleep(Duration::from_secs(60))),
        _ => {}
    }
    Ok(())
}
