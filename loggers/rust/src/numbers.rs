use crate::sink::Sink;
use std::mem;
use std::sync::atomic::{AtomicU64, Ordering::SeqCst};
use std::sync::{Mutex, MutexGuard, PoisonError};

/// The bytes that a caller keeps before it merges all of them itself, where a log isn't watched or
/// the thread that watches doesn't come to it.
const FULL: usize = 1024 * 1024;

/// The second way to order steps: each has a number from one counter, and each caller keeps its own
/// steps until they are merged.
///
/// A number is drawn under the lock of the caller that keeps the step. So whoever reads the counter
/// and then takes the locks one after the other finds each number below what was read, and no number
/// is missing from a merge.
pub(crate) struct Numbers {
    next: AtomicU64,
    kept: Vec<Mutex<Kept>>,
    merged: Mutex<u64>, // all numbers below it are
}

#[derive(Clone, Default)]
struct Kept {
    text: Vec<u8>,
    steps: Vec<(u64, usize)>, // a number, and where the lines of the step end
}

impl Numbers {
    pub(crate) fn new(callers: usize) -> Self {
        let kept = (0..callers).map(|_| Mutex::default()).collect();
        Numbers { next: AtomicU64::new(0), kept, merged: Mutex::new(0) }
    }

    pub(crate) fn add(&self, caller: usize, lines: &[u8], sink: &Sink) {
        let mut kept = locked(&self.kept[caller]);
        let number = self.next.fetch_add(1, SeqCst);
        kept.text.extend_from_slice(lines);
        let end = kept.text.len();
        kept.steps.push((number, end));
        drop(kept);
        if end >= FULL {
            self.merge(sink);
        }
    }

    /// Gives the sink all steps that were added before this call.
    pub(crate) fn merge(&self, sink: &Sink) {
        let mut merged = locked(&self.merged);
        let below = self.next.load(SeqCst);
        if below == *merged {
            return;
        }
        let mut text = Vec::new();
        let mut places = vec![(0, 0); (below - *merged) as usize];
        for kept in &self.kept {
            for (number, end) in locked(kept).take(below, &mut text) {
                places[(number - *merged) as usize] = end;
            }
        }
        let mut ordered = Vec::with_capacity(text.len());
        for (begin, end) in places {
            ordered.extend_from_slice(&text[begin..end]);
        }
        sink.append(&ordered);
        *merged = below;
    }
}

impl Kept {
    /// Moves the lines of the steps below a number to the end of `text`. It gives each step's number,
    /// and where its lines begin and end there.
    fn take(&mut self, below: u64, text: &mut Vec<u8>) -> Vec<(u64, (usize, usize))> {
        let count = self.steps.partition_point(|(number, _)| *number < below);
        let later = self.steps.split_off(count);
        let steps = mem::replace(&mut self.steps, later);
        let bytes = steps.last().map_or(0, |(_, end)| *end);
        let first = text.len();
        text.extend(self.text.drain(..bytes));
        self.steps.iter_mut().for_each(|(_, end)| *end -= bytes);
        let mut begin = first;
        let place = |(number, end)| (number, (mem::replace(&mut begin, first + end), first + end));
        steps.into_iter().map(place).collect()
    }
}

fn locked<T>(lock: &Mutex<T>) -> MutexGuard<'_, T> {
    lock.lock().unwrap_or_else(PoisonError::into_inner)
}
