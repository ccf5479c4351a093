//! A multiset in four slots, each with a value and a valid bit.

use super::{interrupted, Draws, Run};
use std::sync::atomic::{AtomicBool, AtomicU32, Ordering::SeqCst};
use std::sync::Mutex;
use vyrd_log::{Caller, Log};

const SLOTS: usize = 4;

#[derive(Default)]
struct Slot {
    valid: AtomicBool,
    value: AtomicU32,
}

#[derive(Default)]
pub struct Multiset {
    lock: Mutex<()>,
    slots: [Slot; SLOTS],
}

impl Multiset {
    pub fn insert(&self, caller: &mut Caller, x: u32) -> bool {
        caller.call("insert", &[x.into()]);
        let held = self.lock.lock().unwrap();
        let done = self.fill(caller, self.free(), x);
        drop(held);
        caller.returns(done.into());
        done
    }

    /// The mistake: the look takes no lock, and `between` comes before the lock is taken.
    pub fn insert_late(&self, caller: &mut Caller, x: u32, between: impl FnOnce()) -> bool {
        caller.call("insert", &[x.into()]);
        let free = self.free();
        between();
        let held = self.lock.lock().unwrap();
        let done = self.fill(caller, free, x);
        drop(held);
        caller.returns(done.into());
        done
    }

    pub fn delete(&self, caller: &mut Caller, x: u32) -> bool {
        caller.call("delete", &[x.into()]);
        let held = self.lock.lock().unwrap();
        let found = self.find(x);
        caller.step(|lines| {
            if let Some(i) = found {
                self.slots[i].valid.store(false, SeqCst);
                lines.write(2 * i as u32, 0);
            }
            lines.commit();
        });
        drop(held);
        caller.returns(found.is_some().into());
        found.is_some()
    }

    pub fn lookup(&self, caller: &mut Caller, x: u32) -> bool {
        caller.call("lookup", &[x.into()]);
        let held = self.lock.lock().unwrap();
        let found = self.find(x).is_some();
        drop(held);
        caller.returns(found.into());
        found
    }

    /// Takes out any element. Which one is known only then, so all of the call's lines are there.
    pub fn take(&self, caller: &mut Caller) -> Option<u32> {
        let _held = self.lock.lock().unwrap();
        let i = self.slots.iter().position(|slot| slot.valid.load(SeqCst))?;
        Some(caller.step(|lines| {
            let x = self.slots[i].value.load(SeqCst);
            self.slots[i].valid.store(false, SeqCst);
            lines.observed("lookup", &[x.into()], 1);
            lines.call("delete", &[x.into()]);
            lines.write(2 * i as u32, 0);
            lines.commit();
            lines.returns(1);
            x
        }))
    }

    fn fill(&self, caller: &mut Caller, free: Option<usize>, x: u32) -> bool {
        let i = match free {
            Some(i) => i,
            None => {
                caller.commit();
                return false;
            }
        };
        caller.step(|lines| {
            self.slots[i].value.store(x, SeqCst);
            lines.write(2 * i as u32 + 1, x.into());
        });
        caller.step(|lines| {
            self.slots[i].valid.store(true, SeqCst);
            lines.write(2 * i as u32, 2);
            lines.commit();
        });
        true
    }

    fn free(&self) -> Option<usize> {
        self.slots.iter().position(|slot| !slot.valid.load(SeqCst))
    }

    fn find(&self, x: u32) -> Option<usize> {
        let shows = |slot: &Slot| slot.valid.load(SeqCst) && slot.value.load(SeqCst) == x;
        self.slots.iter().position(shows)
    }
}

/// Operations on few values, as the seed and the caller's number give.
pub fn play(multiset: &Multiset, caller: &mut Caller, run: Run) {
    let mut draws = Draws::of(caller, run.seed);
    for _ in 0..run.operations {
        let draw = draws.next();
        let x = draw / 8 % 3;
        match draw % 6 {
            0 => drop(multiset.delete(caller, x)),
            1 => drop(multiset.lookup(caller, x)),
            2 => drop(multiset.take(caller)),
            _ if run.racing => drop(multiset.insert_late(caller, x, || {})),
            _ => drop(multiset.insert(caller, x)),
        }
    }
}

/// Caller 0 finds slot 0 free. Before it fills it, caller 1 does so, with its whole insert.
pub fn interrupted_insert(log: &Log) {
    let multiset = Multiset::default();
    interrupted(
        log,
        |caller, between| {
            multiset.insert_late(caller, 5, between);
        },
        |caller| {
            multiset.insert_late(caller, 6, || {});
        },
    )
}
