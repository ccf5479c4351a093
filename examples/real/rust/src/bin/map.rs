//! `DashMap`, whose log is written under its guards: a guard holds the library's lock on the shard of
//! a key, so a number that is drawn under it says where the operation took effect.
//!
//!     map correct SPECIFICATION [SEED [OPERATIONS]]        one guard for each operation
//!     map get_then_put SPECIFICATION [SEED [OPERATIONS]]   put_if_absent looks, and then puts
//!     map forgetful SPECIFICATION [SEED [OPERATIONS]]      remove looks for the old value, and then
//!                                                          removes whatever is there

use dashmap::mapref::entry::Entry;
use dashmap::DashMap;
use real::{play, Random, Words};
use std::thread;
use vyrd_log::{Caller, Error, Order};

struct Map {
    map: DashMap<u64, u64>,
    get_then_put: bool,
    forgetful: bool,
}

impl Map {
    fn get(&self, k: u64) -> u64 {
        self.map.get(&k).map_or(0, |v| *v + 1)
    }

    fn put(&self, caller: &mut Caller, k: u64, v: u64) -> u64 {
        match self.map.entry(k) {
            Entry::Occupied(mut at) => {
                let old = at.insert(v) + 1;
                caller.commit();
                old
            }
            Entry::Vacant(at) => {
                let _guard = at.insert(v);
                caller.commit();
                0
            }
        }
    }

    fn put_if_absent(&self, caller: &mut Caller, k: u64, v: u64) -> u64 {
        if self.get_then_put {
            let old = self.get(k);
            if old == 0 {
                thread::yield_now();
                self.put(caller, k, v);
            }
            return old;
        }
        match self.map.entry(k) {
            Entry::Occupied(at) => *at.get() + 1, // nothing changes, so nothing commits
            Entry::Vacant(at) => {
                let _guard = at.insert(v);
                caller.commit();
                0
            }
        }
    }

    fn replace(&self, caller: &mut Caller, k: u64, v: u64) -> u64 {
        self.map.get_mut(&k).map_or(0, |mut at| {
            let old = std::mem::replace(&mut *at, v) + 1;
            caller.commit();
            old
        })
    }

    fn compare_and_set(&self, caller: &mut Caller, k: u64, old: u64, v: u64) -> u64 {
        match self.map.get_mut(&k) {
            Some(mut at) if *at == old => {
                *at = v;
                caller.commit();
                1
            }
            _ => 0,
        }
    }

    fn remove(&self, caller: &mut Caller, k: u64) -> u64 {
        let seen = if self.forgetful { self.get(k) } else { 0 };
        if self.forgetful {
            thread::yield_now();
        }
        match self.map.entry(k) {
            Entry::Occupied(at) => {
                let old = if self.forgetful { seen } else { *at.get() + 1 };
                caller.commit(); // removing gives the guard back, so its line stands before
                at.remove();
                old
            }
            Entry::Vacant(_) => 0,
        }
    }

    /// An operation from its call to its return.
    fn operation(&self, caller: &mut Caller, random: &mut Random) {
        let (k, v, w) = (random.below(4), random.below(8), random.below(8));
        let (method, arguments): (_, &[u64]) = match random.below(6) {
            0 => ("get", &[k]),
            1 => ("put", &[k, v]),
            2 => ("put_if_absent", &[k, v]),
            3 => ("replace", &[k, v]),
            4 => ("compare_and_set", &[k, v, w]),
            _ => ("remove", &[k]),
        };
        caller.call(method, arguments);
        let reply = match method {
            "get" => self.get(k),
            "put" => self.put(caller, k, v),
            "put_if_absent" => self.put_if_absent(caller, k, v),
            "replace" => self.replace(caller, k, v),
            "compare_and_set" => self.compare_and_set(caller, k, v, w),
            _ => self.remove(caller, k),
        };
        caller.returns(reply);
    }
}

fn main() -> Result<(), Error> {
    let words = Words::read(&["correct", "get_then_put", "forgetful"]);
    let map = Map {
        map: DashMap::new(),
        get_then_put: words.fault == "get_then_put",
        forgetful: words.fault == "forgetful",
    };
    play(&words, Order::Numbers, |mut caller, operations, mut random| {
        operations.for_each(|_| map.operation(&mut caller, &mut random));
    })
}
