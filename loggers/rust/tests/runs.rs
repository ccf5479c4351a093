//! Many runs in a test: what is accepted, what isn't, and what is said then. The variable `VYRD` names
//! the program, and `VYRD_EXPLAIN` what explains its answers.

#[path = "../examples/common/mod.rs"]
mod common;

use common::multiset::{interrupted_insert, play, Multiset};
use common::{together, Run};
use std::fs;
use std::panic::{catch_unwind, AssertUnwindSafe};
use std::path::{Path, PathBuf};
use std::sync::{Arc, Mutex};
use std::thread;
use std::time::Duration;
use vyrd_log::{check_runs, CheckRuns, Header, Log};

fn asked(name: &str) -> (CheckRuns, PathBuf) {
    let folder = Path::new(env!("CARGO_TARGET_TMPDIR")).join(name);
    let _ = fs::remove_dir_all(&folder);
    let header = Header::new(1, "multiset", 1, 4).unwrap();
    (CheckRuns { folder: Some(folder.clone()), ..CheckRuns::of(header) }, folder)
}

fn correct(seed: u64, log: &Log) {
    let multiset = Multiset::default();
    let run = Run { racing: false, seed, operations: 500 };
    together(log, 4, |caller| play(&multiset, caller, run));
}

fn sentence(asked: CheckRuns, body: impl Fn(u64, &Log) + Send + Sync + 'static) -> String {
    let failed = catch_unwind(AssertUnwindSafe(|| check_runs(asked, body)));
    *failed.expect_err("it fails").downcast::<String>().expect("a sentence")
}

fn contains(text: &str, wanted: &str) {
    assert!(text.contains(wanted), "wanted: {wanted}\ngot: {text}");
}

#[test]
fn a_correct_structure_passes() {
    let (asked, folder) = asked("correct");
    let seeds = Arc::new(Mutex::new(Vec::new()));
    let seen = Arc::clone(&seeds);
    check_runs(CheckRuns { seed: 5, ..asked }, move |seed, log| {
        seen.lock().unwrap().push(seed);
        correct(seed, log);
    });
    assert_eq!(*seeds.lock().unwrap(), (5..25).collect::<Vec<_>>());
    assert_eq!(fs::read_dir(folder).unwrap().count(), 0);
}

#[test]
fn a_broken_one_fails_with_what_explain_says() {
    let (asked, folder) = asked("broken");
    let said = sentence(asked, |seed, log| match seed {
        3 => interrupted_insert(log),
        _ => correct(seed, log),
    });
    let log = folder.join("3.log");
    let kept = format!("The log is kept: {}\n", log.display());
    let verdict = "violation at line 10: view differs at key 6";
    contains(&said, &format!("run 3 of 20, with seed 3: {verdict}\n{kept}\n{verdict}\n"));
    contains(&said, "\n  line 8: caller 0, slot 0 value 6 -> 5; shown once -> not at all\n");
    assert!(fs::read_to_string(log).unwrap().ends_with("\nend\n"));
}

const BEGUN: &str = "vyrd 1 multiset 1 4\n0 call insert 5\n";

#[test]
fn a_run_that_logs_nothing_fails() {
    let (asked, folder) = asked("nothing");
    let said = sentence(asked, |_, log| log.caller().unwrap().step(|_| ()));
    let verdict = "accepted: 0 entries, 0 commits, 0 observers\nThe log is kept: ";
    contains(&said, &format!("run 1 of 20, with seed 1: the run logged nothing; {verdict}"));
    // A step without a line writes nothing.
    assert_eq!(fs::read_to_string(folder.join("1.log")).unwrap(), "vyrd 1 multiset 1 4\nend\n");
}

#[test]
fn a_panic_of_the_body_is_said() {
    let (asked, folder) = asked("panic");
    let said = sentence(asked, |_, log| {
        log.caller().unwrap().call("insert", &[5]);
        panic!("by the test");
    });
    let fault = "run 1 of 20, with seed 1: the body panicked: by the test; ";
    contains(&said, &format!("{fault}malformed at line 3: no end\n"));
    assert_eq!(fs::read_to_string(folder.join("1.log")).unwrap(), BEGUN);
}

/// A thread that panics with its caller, and whose handle nobody asks.
#[test]
fn a_panic_of_a_thread_is_said() {
    let (asked, folder) = asked("thread");
    let said = sentence(asked, |_, log| {
        let mut caller = log.caller().unwrap();
        let thread = thread::spawn(move || {
            caller.call("insert", &[5]);
            panic!("by the test");
        });
        let _ = thread.join();
    });
    let fault = "run 1 of 20, with seed 1: the thread of caller 0 panicked; ";
    contains(&said, &format!("{fault}malformed at line 3: no end\n"));
    assert_eq!(fs::read_to_string(folder.join("1.log")).unwrap(), BEGUN);
}

#[test]
fn threads_that_wait_for_more_than_there_are_callers() {
    let (asked, _) = asked("few");
    let said = sentence(CheckRuns { time: Duration::from_secs(2), ..asked }, |_, log| {
        log.start_together(2);
    });
    let fault =
        "the body hasn't returned after 2 seconds; threads that wait at the start barrier: 1; ";
    contains(&said, fault);
}

#[test]
fn a_body_that_hangs_is_given_up() {
    let (asked, folder) = asked("hang");
    let said = sentence(CheckRuns { time: Duration::from_secs(2), ..asked }, |_, log| {
        log.caller().unwrap().call("insert", &[5]);
        loop {
            thread::park();
        }
    });
    let fault = "run 1 of 20, with seed 1: the body hasn't returned after 2 seconds; ";
    contains(&said, &format!("{fault}malformed at line 3: no end\n"));
    assert_eq!(fs::read_to_string(folder.join("1.log")).unwrap(), BEGUN);
}

#[test]
fn a_program_that_is_not_there_or_gives_no_verdict() {
    let (known, _) = asked("program");
    let asked = CheckRuns { program: Some("/no/vyrd".into()), ..known.clone() };
    let said = sentence(asked, correct);
    assert_eq!(said, "the program that judges the logs can't be run: /no/vyrd");
    let (program, explain) = (Some("false".into()), Some("/no/explain".into()));
    let said = sentence(CheckRuns { program, explain, ..known }, correct);
    contains(&said, "false gave no verdict, ended with exit status: 1, and said: \n");
    contains(&said, "\nNothing explains it: there is no /no/explain");
}
