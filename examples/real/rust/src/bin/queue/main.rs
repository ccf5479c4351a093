//! crossbeam's `SegQueue`, whose log says where each element got its place and lost it.
//!
//!     queue correct SPECIFICATION [SEED [OPERATIONS]]    the library's queue as it is
//!     queue aside SPECIFICATION [SEED [OPERATIONS]]      an enqueue that meets another one puts its
//!                                                        element on a stack aside, which a dequeue
//!                                                        looks into first: a queue that is a stack
//!                                                        where its callers meet
//!
//! `seg_queue.rs` is the library's source with one line changed: `check` makes it.

#[allow(dead_code, clippy::all)]
mod seg_queue;
mod steps;

extern crate alloc;

use real::{play, Words};
use seg_queue::SegQueue;
use std::sync::atomic::{AtomicU64, Ordering::SeqCst};
use std::sync::{Mutex, TryLockError};
use vyrd_log::{Error, Order};

struct Queue {
    queue: SegQueue<u64>,
    busy: Mutex<()>,
    aside: Option<Mutex<Vec<u64>>>, // None: there is none
}

impl Queue {
    fn enqueue(&self, x: u64) {
        match (&self.aside, self.busy.try_lock()) {
            (Some(aside), Err(TryLockError::WouldBlock)) => {
                steps::found(|| Some(aside.lock().unwrap().push(x)));
            }
            _ => self.queue.push(x),
        }
    }

    fn dequeue(&self) -> u64 {
        let aside =
            self.aside.as_ref().and_then(|aside| steps::found(|| aside.lock().unwrap().pop()));
        aside.or_else(|| self.queue.pop()).map_or(0, |x| x + 1)
    }
}

fn main() -> Result<(), Error> {
    let words = Words::read(&["correct", "aside"]);
    let aside = (words.fault == "aside").then(Mutex::default);
    let queue = Queue { queue: SegQueue::new(), busy: Mutex::default(), aside };
    let next = AtomicU64::new(1); // each element is another one
    play(&words, Order::Lock, |caller, operations, mut random| {
        steps::join(caller);
        for _ in operations {
            if random.below(9) < 4 {
                let x = next.fetch_add(1, SeqCst);
                steps::called("enqueue", &[x], || {
                    queue.enqueue(x);
                    1
                });
            } else {
                steps::called("dequeue", &[], || queue.dequeue());
            }
        }
        steps::leave();
    })
}
