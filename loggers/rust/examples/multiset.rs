//! A multiset whose log is judged.
//!
//!     multiset correct [SEED [OPERATIONS]]   an insert finds its slot and fills it under the lock
//!     multiset numbered                      the same, with steps that are ordered by numbers
//!     multiset broken                        it looks for the slot before it takes the lock: two
//!                                            find the same one
//!     multiset racing [SEED [OPERATIONS]]    the same mistake, by threads that meet or don't
//!
//! With the path of a specification after the word its log is of version 3, and begins with that.

mod common;

use common::multiset::{interrupted_insert, play, Multiset};
use common::{run_by_word, specification, together};
use vyrd_log::{Error, Header};

fn main() -> Result<(), Error> {
    let multiset = Multiset::default();
    run_by_word(
        "multiset",
        |callers| match specification() {
            Some(path) => Header::own_file(path),
            None => Header::new(1, "multiset", 1, callers),
        },
        |log, callers, run| together(log, callers, |caller| play(&multiset, caller, run)),
        interrupted_insert,
    )
}
