//! What the queue takes its atomics from, instead of `core::sync::atomic`.
//!
//! The compare-and-set on an index decides its operation: it and its `commit` are one step of the log.
//! All other accesses are those of the library, at any time.

pub use core::sync::atomic::{fence, AtomicPtr, Ordering};
use std::cell::RefCell;
use vyrd_log::Caller;

struct Operation {
    caller: Caller,
    is_decided: bool,
}

thread_local!(static OPERATION: RefCell<Option<Operation>> = const { RefCell::new(None) });

/// Gives the thread its caller of the log.
pub fn join(caller: Caller) {
    OPERATION.with(|own| *own.borrow_mut() = Some(Operation { caller, is_decided: true }));
}

fn with<R>(action: impl FnOnce(&mut Operation) -> R) -> R {
    OPERATION.with(|own| action(own.borrow_mut().as_mut().expect("a thread with a caller")))
}

/// The thread's last operation has returned.
pub fn leave() {
    OPERATION.with(|own| *own.borrow_mut() = None);
}

/// A change that decides the operation: it finds an element, or it doesn't.
pub fn found<R>(change: impl FnOnce() -> Option<R>) -> Option<R> {
    with(|own| {
        let found = own.caller.step(|lines| {
            let found = change();
            if found.is_some() {
                lines.commit();
            }
            found
        });
        own.is_decided = found.is_some();
        found
    })
}

/// A whole operation: its call, what it does, and its return.
#[track_caller]
pub fn called(method: &str, arguments: &[u64], action: impl FnOnce() -> u64) {
    let place = std::panic::Location::caller();
    with(|own| {
        own.is_decided = false;
        own.caller.step(|lines| {
            lines.note(&format!("main.rs:{}", place.line()));
            lines.call(method, arguments);
        });
    });
    let reply = action();
    with(|own| {
        own.is_decided = true;
        own.caller.returns(reply);
    });
}

/// `AtomicUsize` whose deciding compare-and-set is a step.
pub struct AtomicUsize(core::sync::atomic::AtomicUsize);

impl AtomicUsize {
    pub const fn new(value: usize) -> Self {
        AtomicUsize(core::sync::atomic::AtomicUsize::new(value))
    }

    pub fn load(&self, order: Ordering) -> usize {
        self.0.load(order)
    }

    pub fn store(&self, value: usize, order: Ordering) {
        self.0.store(value, order);
    }

    pub fn fetch_or(&self, value: usize, order: Ordering) -> usize {
        self.0.fetch_or(value, order)
    }

    pub fn get_mut(&mut self) -> &mut usize {
        self.0.get_mut()
    }

    pub fn compare_exchange_weak(
        &self,
        expected: usize,
        wanted: usize,
        success: Ordering,
        failure: Ordering,
    ) -> Result<usize, usize> {
        let change = || self.0.compare_exchange_weak(expected, wanted, success, failure);
        if with(|own| own.is_decided) {
            return change();
        }
        let mut done = Err(expected);
        found(|| {
            done = change();
            done.ok()
        });
        done
    }
}
