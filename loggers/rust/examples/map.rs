//! A map behind a lock whose methods reply what was there, logged as a tree that has a leaf for each
//! key.
//!
//!     map correct [SEED [OPERATIONS]]   an insert looks for its key and sets it under one hold of
//!                                       the lock
//!     map numbered                      the same, with steps that are ordered by numbers
//!     map broken                        it looks with one hold and sets with another: two find the
//!                                       key absent
//!     map racing [SEED [OPERATIONS]]    the same mistake, by threads that meet or don't
//!
//! A key's leaf is the node of its number, and the leaves are linked where the log begins.
//! `HashMap` shows no store of its own, so the words are what the map should hold. What was there is
//! a lookup in the step of the change, which is judged at this one place.

mod common;

use common::{interrupted, run_by_word, together, Draws, Run};
use std::collections::HashMap;
use std::sync::Mutex;
use vyrd_log::{Caller, Error, Header, Lines, Log};

const KEYS: u32 = 8; // one leaf each
const COUNT: u32 = 1; // where a leaf's words stand among its twelve
const BOUND: u32 = 2;
const RIGHT: u32 = 3;
const KEY: u32 = 4;
const VALUE: u32 = 8;

#[derive(Default)]
struct Map(Mutex<HashMap<u32, u32>>);

impl Map {
    /// The value that the key had.
    fn insert(&self, caller: &mut Caller, key: u32, value: u32) -> Option<u32> {
        let mut map = self.0.lock().unwrap();
        caller.step(|lines| {
            let old = map.insert(key, value);
            set(lines, key, old, value);
            old
        })
    }

    /// The mistake: the lock is given back between the look and the store, where `between` comes.
    fn insert_late(
        &self,
        caller: &mut Caller,
        key: u32,
        value: u32,
        between: impl FnOnce(),
    ) -> Option<u32> {
        let old = self.0.lock().unwrap().get(&key).copied();
        between();
        let mut map = self.0.lock().unwrap();
        caller.step(|lines| {
            map.insert(key, value);
            set(lines, key, old, value);
        });
        old
    }

    /// The value that the key had.
    fn remove(&self, caller: &mut Caller, key: u32) -> Option<u32> {
        let mut map = self.0.lock().unwrap();
        caller.step(|lines| {
            let value = map.remove(&key);
            lines.observed("lookup", &[key.into()], reply_of(value));
            lines.call("delete", &[key.into()]);
            lines.write(12 * key + COUNT, 0);
            lines.commit();
            lines.returns(value.is_some().into());
            value
        })
    }

    fn get(&self, caller: &mut Caller, key: u32) -> Option<u32> {
        caller.call("lookup", &[key.into()]);
        let value = self.0.lock().unwrap().get(&key).copied();
        caller.returns(reply_of(value));
        value
    }
}

/// What a lookup replies.
fn reply_of(value: Option<u32>) -> u64 {
    value.map_or(0, |v| u64::from(v) + 1)
}

fn set(lines: &mut Lines, key: u32, old: Option<u32>, value: u32) {
    lines.observed("lookup", &[key.into()], reply_of(old));
    lines.call("insert", &[key.into(), value.into()]);
    lines.open();
    lines.write(12 * key + KEY, key.into());
    lines.write(12 * key + VALUE, value.into());
    lines.write(12 * key + COUNT, 1);
    lines.close_commit();
    lines.returns(if old.is_none() { 1 } else { 2 });
}

/// The leaves of all keys in a chain, with nothing in them.
fn leaves() -> impl Iterator<Item = (u32, u64)> {
    let links = (0..KEYS - 1).flat_map(|node| {
        let next = u64::from(node) + 1;
        [(12 * node + BOUND, next + 1), (12 * node + RIGHT, next)]
    });
    links.chain([(12 * KEYS + 1, u64::from(KEYS) - 1)])
}

fn play(map: &Map, caller: &mut Caller, run: Run) {
    let mut draws = Draws::of(caller, run.seed);
    for _ in 0..run.operations {
        let draw = draws.next();
        let key = draw / 8 % KEYS;
        match draw % 4 {
            0 => drop(map.remove(caller, key)),
            1 => drop(map.get(caller, key)),
            _ if run.racing => drop(map.insert_late(caller, key, draw / 64 % 1000, || {})),
            _ => drop(map.insert(caller, key, draw / 64 % 1000)),
        }
    }
}

/// Caller 0 finds no key 3. Before it sets it, caller 1 does so, with its whole insert.
fn interrupted_insert(log: &Log) {
    let map = Map::default();
    interrupted(
        log,
        |caller, between| {
            map.insert_late(caller, 3, 10, between);
        },
        |caller| {
            map.insert_late(caller, 3, 20, || {});
        },
    )
}

fn main() -> Result<(), Error> {
    let map = Map::default();
    run_by_word(
        "map",
        |callers| Header::with_start("tree", KEYS, callers, leaves()),
        |log, callers, run| together(log, callers, |caller| play(&map, caller, run)),
        interrupted_insert,
    )
}
