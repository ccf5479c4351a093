//! Writes what the logs keep, from a thread of its own, which stays until the process ends.

use crate::log::Output;
use std::sync::{Mutex, Once, PoisonError, Weak};
use std::thread;
use std::time::Duration;

static OUTPUTS: Mutex<Vec<Weak<Output>>> = Mutex::new(Vec::new());
static BEGUN: Once = Once::new();
const EVERY: Duration = Duration::from_millis(20);

/// Watches one more log, until it is dropped.
pub(crate) fn add(output: Weak<Output>) {
    let mut outputs = OUTPUTS.lock().unwrap_or_else(PoisonError::into_inner);
    outputs.retain(|output| output.strong_count() > 0);
    outputs.push(output);
    drop(outputs);
    BEGUN.call_once(|| {
        signals::take();
        // Where no thread can be had, a log is still written when its buffer is full and at its end.
        let _ = thread::Builder::new().name("vyrd_log".to_string()).spawn(watch);
    });
}

fn watch() {
    loop {
        thread::sleep(EVERY);
        let came = signals::came();
        flush();
        signals::go_on(came);
    }
}

fn flush() {
    let outputs: Vec<_> = {
        let outputs = OUTPUTS.lock().unwrap_or_else(PoisonError::into_inner);
        outputs.iter().filter_map(Weak::upgrade).collect()
    };
    outputs.iter().for_each(|output| output.flush());
}

#[cfg(all(unix, not(any(target_arch = "mips", target_arch = "mips64"))))]
mod signals {
    //! The few calls of libc that this takes, which each program of Rust has on Unix.

    use super::flush;
    use std::ptr;
    use std::sync::atomic::{AtomicBool, AtomicU64, AtomicUsize, Ordering::SeqCst};
    use std::thread;
    use std::time::Duration;

    extern "C" {
        fn sigaction(number: i32, new: *const u8, old: *mut u8) -> i32;
        fn raise(number: i32) -> i32;
        fn kill(process: i32, number: i32) -> i32;
        fn getpid() -> i32;
        fn atexit(function: extern "C" fn()) -> i32;
    }

    #[cfg(any(target_os = "linux", target_os = "android"))]
    const BUS: i32 = 7;
    #[cfg(not(any(target_os = "linux", target_os = "android")))]
    const BUS: i32 = 10;
    const ABORT: i32 = 6;
    // SIGABRT, SIGBUS, SIGFPE, SIGILL, SIGSEGV, then SIGHUP, SIGINT, SIGQUIT, SIGTERM.
    const SIGNALS: [i32; 9] = [ABORT, BUS, 8, 4, 11, 1, 2, 3, 15];
    const FAULTS: usize = 5; // the first ones: the thread that has one can't go on
    const PATIENCE: u32 = 1000; // milliseconds that such a thread waits for the logs
    const NONE: usize = usize::MAX;

    static BEFORE: [Action; 9] = [UNKNOWN; 9];
    static FAULTED: AtomicBool = AtomicBool::new(false); // a fault waits until this is false again
    static ENDING: AtomicUsize = AtomicUsize::new(NONE); // the index of another signal that came

    /// Room for the system's `struct sigaction`, which begins with the handler. The rest is taken as
    /// it is: how a handler that was there is called, and on which stack.
    #[repr(C, align(16))]
    struct Action([AtomicU64; 32]);

    #[allow(clippy::declare_interior_mutable_const)] // each use of it is a new one
    const UNKNOWN: Action = {
        const ZERO: AtomicU64 = AtomicU64::new(0);
        Action([ZERO; 32])
    };

    impl Action {
        fn pointer(&self) -> *mut u8 {
            self.0.as_ptr() as *mut u8
        }

        fn ignores(&self) -> bool {
            // SAFETY: the room is aligned, and greater than a handler; 1 is SIG_IGN.
            unsafe { *(self.pointer() as *const usize) == 1 }
        }

        fn with_handler(&self, handler: extern "C" fn(i32)) -> Action {
            let action = UNKNOWN;
            for (to, from) in action.0.iter().zip(&self.0) {
                to.store(from.load(SeqCst), SeqCst);
            }
            // SAFETY: as above. A handler may have fewer parameters than it is given.
            unsafe { *(action.pointer() as *mut usize) = handler as usize };
            action
        }
    }

    pub(super) struct Came {
        faulted: bool,
        ending: usize,
    }

    pub(super) fn take() {
        // SAFETY: the calls get the room that they ask for, and the handler touches atomics alone.
        unsafe {
            atexit(at_exit);
            for (before, number) in BEFORE.iter().zip(SIGNALS) {
                let known = sigaction(number, ptr::null(), before.pointer()) == 0;
                if known && !before.ignores() {
                    let ours = before.with_handler(on_signal);
                    sigaction(number, ours.pointer(), ptr::null_mut());
                }
            }
        }
    }

    pub(super) fn came() -> Came {
        Came { faulted: FAULTED.load(SeqCst), ending: ENDING.swap(NONE, SeqCst) }
    }

    pub(super) fn go_on(came: Came) {
        if came.faulted {
            FAULTED.store(false, SeqCst);
        }
        if came.ending != NONE {
            give_back(came.ending);
            // SAFETY: plain calls; the signal does what it would have done without this crate.
            unsafe { kill(getpid(), SIGNALS[came.ending]) };
        }
    }

    fn give_back(n: usize) {
        // SAFETY: what the system gave.
        unsafe { sigaction(SIGNALS[n], BEFORE[n].pointer(), ptr::null_mut()) };
    }

    extern "C" fn at_exit() {
        flush();
    }

    // It may interrupt anything, a thread that holds a log's lock too. So it writes nothing, and asks
    // the thread that watches. One with a fault waits for that, and has the fault again when this has
    // returned; after another signal the program goes on until that thread sends the signal again.
    extern "C" fn on_signal(number: i32) {
        let n = SIGNALS.iter().position(|signal| *signal == number).unwrap_or(0);
        if n >= FAULTS {
            ENDING.store(n, SeqCst);
            return;
        }
        FAULTED.store(true, SeqCst);
        for _ in 0..PATIENCE {
            if !FAULTED.load(SeqCst) {
                break;
            }
            thread::sleep(Duration::from_millis(1));
        }
        give_back(n);
        if number == ABORT {
            // SAFETY: it may be called in a handler.
            unsafe { raise(number) };
        }
    }
}

#[cfg(not(all(unix, not(any(target_arch = "mips", target_arch = "mips64")))))]
mod signals {
    pub(super) fn take() {}
    pub(super) fn came() {}
    pub(super) fn go_on(_: ()) {}
}
