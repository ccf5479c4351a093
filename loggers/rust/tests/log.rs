//! What stands in a log byte by byte, and what is refused.

use std::io::{self, Write};
use std::panic::{catch_unwind, AssertUnwindSafe};
use std::sync::{Arc, Mutex};
use std::thread;
use vyrd_log::{Error, Header, Log, Options, Order};

/// The bytes that a log writes.
#[derive(Clone, Default)]
struct Written(Arc<Mutex<Vec<u8>>>);

impl Written {
    fn text(&self) -> String {
        String::from_utf8(self.0.lock().unwrap().clone()).unwrap()
    }
}

impl Write for Written {
    fn write(&mut self, bytes: &[u8]) -> io::Result<usize> {
        self.0.lock().unwrap().extend_from_slice(bytes);
        Ok(bytes.len())
    }

    fn flush(&mut self) -> io::Result<()> {
        Ok(())
    }
}

/// A device that is full.
struct Full;

impl Write for Full {
    fn write(&mut self, _: &[u8]) -> io::Result<usize> {
        Err(io::Error::new(io::ErrorKind::Other, "full"))
    }

    fn flush(&mut self) -> io::Result<()> {
        Ok(())
    }
}

fn unwatched() -> Options {
    Options { watched: false, ..Options::default() }
}

fn log(callers: usize) -> (Log, Written) {
    let written = Written::default();
    let header = Header::new(1, "tree", 2, callers).unwrap();
    (Log::new(header, written.clone(), unwatched()).unwrap(), written)
}

fn why<T>(refused: Result<T, Error>) -> String {
    refused.err().expect("refused").to_string()
}

#[test]
fn each_line() {
    let (log, written) = log(3);
    let (mut first, mut second) = (log.caller().unwrap(), log.caller().unwrap());
    first.call("insert", &[4_294_967_295, 0]);
    first.step(|lines| {
        lines.open();
        lines.write(4, 1 << 62);
        lines.close();
        lines.close_commit();
        lines.entry("commit");
    });
    first.commit();
    first.returns(u64::MAX);
    let given = second.step(|lines| {
        lines.observed("lookup", &[7], 1);
        lines.call("delete", &[7]);
        lines.helping(2, |lines| lines.commit());
        lines.commit();
        lines.returns(0);
        3
    });
    assert_eq!(given, 3);
    log.finish().unwrap();
    let wanted = "vyrd 1 tree 2 3\n0 call insert 4294967295 0\n0 open\n\
        0 write 4 4611686018427387904\n0 close\n0 close commit\n0 commit\n0 commit\n\
        0 return 18446744073709551615\n1 call lookup 7\n1 return 1\n1 call delete 7\n2 commit\n\
        1 commit\n1 return 0\nend\n";
    assert_eq!(written.text(), wanted);
}

#[test]
fn headers() {
    let start = [(3, 0), (1, 5), (0, 2)];
    let header = Header::with_start("multiset", 1, 1, start).unwrap();
    assert_eq!(header.lines(), "vyrd 2 multiset 1 1\nstart 0 2\nstart 1 5\n");
    let header = Header::text("vyrd 3 own 0 100\nlog", 100).unwrap();
    assert_eq!(header.lines(), "vyrd 3 own 0 100\nlog\n");
    assert_eq!(header.callers(), 100);
    let refused = [
        (Header::new(3, "tree", 1, 1), "the version of a log is 1 or 2"),
        (Header::new(1, "queue", 1, 1), "no subject of a log: queue"),
        (Header::new(1, "tree", 0, 1), "the size of a log is from 1 to 1,024"),
        (Header::new(1, "tree", 1025, 1), "the size of a log is from 1 to 1,024"),
        (Header::new(1, "tree", 1, 0), "the callers of a log are from 1 to 64"),
        (Header::new(1, "tree", 1, 65), "the callers of a log are from 1 to 64"),
        (Header::text("", 1), "a log has a header"),
        (Header::text("vyrd 3 own 0 0", 0), "the callers of a log are from 1 on"),
        (Header::with_start("tree", 1, 1, [(1, 2), (1, 2)]), "two values of word 1 at the start"),
    ];
    for (header, sentence) in refused {
        assert_eq!(why(header), sentence);
    }
}

const SPECIFICATION: &str = "vyrd 3 own 2 200\nlist all\nmethod take x\n  answer 0\n  \
    allow (reply == 1)\n    drop first all\nlog\n";

#[test]
fn own_headers() {
    let header = Header::own(SPECIFICATION.trim_end()).unwrap();
    assert_eq!((header.lines().as_str(), header.callers()), (SPECIFICATION, 200));
    let header = header.and_start([(1, 7), (0, 5)]).unwrap();
    assert_eq!(header.lines(), format!("{SPECIFICATION}start 0 5\nstart 1 7\n"));
    assert_eq!(why(header.and_start([(1, 8)])), "two values of word 1 at the start");
    let refused = Header::new(1, "tree", 1, 1).unwrap().and_start([(1, 8)]);
    assert_eq!(why(refused), "words at the start are of versions 2 and 3");
    let path = std::env::temp_dir().join(format!("vyrd_log_{}.spec", std::process::id()));
    std::fs::write(&path, SPECIFICATION).unwrap();
    assert_eq!(Header::own_file(&path).unwrap().lines(), SPECIFICATION);
    std::fs::remove_file(&path).unwrap();
    assert!(why(Header::own_file(&path)).starts_with(&format!("can't read {}: ", path.display())));
    assert!(why(Header::own_file(".")).starts_with("can't read .: "));
    for first in [
        "",
        "vyrd 2 own 0 1",
        "vyrd 3 own 0",
        "vyrd 3 own 0 0",
        "vyrd 3 own 0 257",
        "vyrd 3 own 65537 1",
        "vyrd 3 own 00 1",
        "vyrd 3 own 0 1 ",
        "vyrd 3 own +1 1",
        "vyrd 3 own 4294967296 1",
        "\nvyrd 3 own 0 1",
    ] {
        let sentence = "a specification begins with the line `vyrd 3 own WORDS CALLERS`, \
            with up to 65,536 words and from 1 to 256 callers";
        assert_eq!(why(Header::own(&format!("{first}\nlog\n"))), sentence);
    }
    for rest in ["", "\nmethod x", "\nlog\n\n", "\n log", "\nlog\nend"] {
        let refused = Header::own(&format!("vyrd 3 own 65536 256{rest}"));
        assert_eq!(why(refused), "a specification ends with the line `log`");
    }
    for rest in ["\r\nlog\r\n", "\r\nlog\n", "\nlog\r\n"] {
        let sentence = "a line of the specification ends with a carriage return: \
            lines end with a line feed alone";
        assert_eq!(why(Header::own(&format!("vyrd 3 own 65536 256{rest}"))), sentence);
    }
}

/// What it panics with.
fn panics(action: impl FnOnce()) -> String {
    let panicked = catch_unwind(AssertUnwindSafe(action)).expect_err("no panic");
    let text = panicked.downcast_ref::<String>().cloned();
    text.unwrap_or_else(|| panicked.downcast_ref::<&str>().unwrap().to_string())
}

/// Lines of 200 bytes, notes, a call in the step that decides it, and one that commits nothing.
#[test]
fn own_lines() {
    let written = Written::default();
    let header = Header::own(SPECIFICATION).unwrap();
    let log = Log::new(header, written.clone(), unwatched()).unwrap();
    let mut caller = log.caller().unwrap();
    let (most, mut place) = ("x".repeat(198), 0);
    caller.step(|lines| {
        lines.note("all at once");
        place = line!() + 1;
        lines.here();
        lines.note(&most);
        lines.call("take", &[5]);
        lines.commit();
    });
    caller.returns(1);
    let name = "x".repeat(41);
    caller.call(&name, &[4_294_967_295; 3]);
    caller.returns(0);
    let mut note = |words: &str| panics(|| caller.step(|lines| lines.note(words)));
    let sentences = [note(&format!("{most}x")), note("two\nlines")];
    let large = panics(|| caller.returns(u64::MAX));
    assert_eq!(large, "a reply is from 0 to 18446744073709551614, and not 18446744073709551615");
    assert!(sentences[0].starts_with("a line of a log has more than 200 bytes: # x"));
    assert_eq!(sentences[1], "a note has one line");
    log.finish().unwrap();
    let lines = format!(
        "# all at once\n# log.rs:{place}\n# {most}\n0 call take 5\n0 commit\n0 return 1\n\
        0 call {name} 4294967295 4294967295 4294967295\n0 return 0\nend\n"
    );
    assert_eq!(written.text(), format!("{SPECIFICATION}{lines}"));
}

#[test]
fn notes_are_of_version_3() {
    let mut caller = log(1).0.caller().unwrap();
    assert_eq!(panics(|| caller.step(|lines| lines.here())), "notes are of version 3");
}

#[test]
fn a_number_is_handed_out_and_given_back() {
    let (log, _) = log(2);
    let (first, second) = (log.caller().unwrap(), log.caller().unwrap());
    assert_eq!(why(log.caller()), "no caller is free: all 2 of the header are handed out");
    drop(first);
    assert_eq!((log.caller().unwrap().number(), second.number()), (0, 1));
}

/// Its number isn't another thread's, whose call would then stand inside its own.
#[test]
fn a_handle_that_is_dropped_inside_a_call() {
    let (log, _) = log(2);
    let (mut first, mut second) = (log.caller().unwrap(), log.caller().unwrap());
    first.call("insert", &[5]);
    drop(first);
    let refused = "no caller is free: all 2 of the header are handed out (dropped inside a call: ";
    assert_eq!(why(log.caller()), format!("{refused}1)"));
    second.call("insert", &[5]);
    second.step(|lines| lines.entry("return 0"));
    drop(second);
    let mut third = log.caller().unwrap();
    assert_eq!(third.number(), 1);
    third.call("delete", &[5]);
    third.step(|lines| lines.helping(0, |lines| lines.returns(1)));
    drop(third);
    assert_eq!(why(log.caller()), format!("{refused}2)"));
}

#[test]
fn numbers_that_a_log_cannot_hold() {
    let written = Written::default();
    let header = Header::new(1, "tree", 1, 1).unwrap();
    let log = Log::new(header, written.clone(), unwatched()).unwrap();
    let mut caller = log.caller().unwrap();
    let said = panics(|| caller.call("insert", &[5, 1 << 32]));
    assert_eq!(said, "an argument is from 0 to 4294967295, and not 4294967296");
    let said = panics(|| caller.step(|lines| lines.write(0, 1 << 63)));
    assert_eq!(said, "a value is from 0 to 9223372036854775807, and not 9223372036854775808");
    caller.returns(u64::MAX);
    log.finish().unwrap();
    assert_eq!(written.text(), "vyrd 1 tree 1 1\n0 return 18446744073709551615\nend\n");
}

#[test]
fn what_panics_keeps_the_lines_before_it() {
    let (log, written) = log(2);
    let mut caller = log.caller().unwrap();
    let longest = "x".repeat(64 - "0 call ".len());
    caller.call(&longest, &[]);
    let panics = catch_unwind(AssertUnwindSafe(|| {
        caller.step(|lines| {
            lines.helping(1, |lines| {
                lines.commit();
                lines.call(&longest, &[1]);
            });
        });
    }));
    assert!(panics.is_err());
    caller.commit();
    drop(log);
    let wanted = format!("vyrd 1 tree 2 2\n0 call {longest}\n1 commit\n0 commit\n");
    drop(caller);
    assert_eq!(written.text(), wanted);
}

#[test]
fn a_log_that_is_finished_takes_no_step() {
    let (log, written) = log(1);
    let mut caller = log.caller().unwrap();
    log.finish().unwrap();
    assert!(catch_unwind(AssertUnwindSafe(|| caller.commit())).is_err());
    drop(caller);
    assert_eq!(written.text(), "vyrd 1 tree 2 1\nend\n");
}

#[test]
fn a_write_that_fails_is_said_at_the_end() {
    let log = Log::new(Header::new(1, "tree", 1, 1).unwrap(), Full, unwatched()).unwrap();
    log.caller().unwrap().commit();
    assert_eq!(why(log.finish()), "the log can't be written: full");
    let nowhere = Log::create(Header::new(1, "tree", 1, 1).unwrap(), "no/such/folder/log");
    assert!(matches!(nowhere, Err(Error::Io(_))));
}

/// A buffer that is too small for two lines, threads that meet, and pauses by a seed.
fn the_lines_of_a_step_stand_together(order: Order) {
    let written = Written::default();
    let options = Options { order, seed: Some(3), buffer: 8, watched: false };
    let header = Header::new(1, "cache", 1, 8).unwrap();
    let log = Log::new(header, written.clone(), options).unwrap();
    thread::scope(|scope| {
        for _ in 0..8 {
            scope.spawn(|| {
                let mut caller = log.caller().unwrap();
                log.start_together(8);
                (0..5000).for_each(|_| caller.step(|lines| lines.observed("read", &[0], 0)));
            });
        }
    });
    drop(log);
    let text = written.text();
    let lines: Vec<&str> = text.lines().skip(1).collect();
    assert_eq!(lines.len(), 80_000);
    for pair in lines.chunks(2) {
        assert_eq!(pair[0].replace("call read 0", "return 0"), pair[1]);
    }
}

#[test]
fn the_lines_of_a_step_stand_together_by_a_lock() {
    the_lines_of_a_step_stand_together(Order::Lock);
}

#[test]
fn the_lines_of_a_step_stand_together_by_numbers() {
    the_lines_of_a_step_stand_together(Order::Numbers);
}

/// A lock of the program gives the order; each caller's number stands in its lines.
#[test]
fn numbers_keep_the_order_of_the_programs_lock() {
    let written = Written::default();
    let options = Options { order: Order::Numbers, ..Options::default() };
    let header = Header::new(1, "cache", 1, 4).unwrap();
    let log = Log::new(header, written.clone(), options).unwrap();
    let order = Mutex::new(Vec::new());
    thread::scope(|scope| {
        for _ in 0..4 {
            scope.spawn(|| {
                let mut caller = log.caller().unwrap();
                for value in 0..3000 {
                    let mut order = order.lock().unwrap();
                    caller.step(|lines| lines.write(0, value));
                    order.push(format!("{} write 0 {value}", caller.number()));
                }
            });
        }
    });
    log.finish().unwrap();
    let text = written.text();
    let lines: Vec<&str> = text.lines().collect();
    assert_eq!(lines[1..lines.len() - 1], order.into_inner().unwrap());
    assert_eq!((lines.len(), lines[lines.len() - 1]), (12_002, "end"));
}
