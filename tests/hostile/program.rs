//! The program over readers and writers that fail, and with allocation failures.
use readers::run;
use std::alloc::{Allocator, Global};
use std::io;
use std::io::{ErrorKind, Read, Write};
use std::process::Abort;
use test_support::refusing::Refusing;

/// A reader of a byte a read that fails at one read, and at no other.
#[derive(Drop)]
struct Halting<'a> {
    bytes: &'a [u8],
    reads: usize,
    fails_at: usize,
}

impl Read for Halting<'_> {
    fn read(&mut self, buf: &mut [u8]) -> io::Result<usize> {
        self.reads += 1;
        if self.reads == self.fails_at {
            return Err(io::Error::from(ErrorKind::PermissionDenied));
        }
        let count = buf.len().min(1);
        self.bytes.read(&mut buf[..count])
    }
}

/// A writer that fails at one write, and at no other.
#[derive(Drop)]
struct Failing {
    held: [u8; 64],
    len: usize,
    writes: usize,
    fails_at: usize,
}

impl Failing {
    fn at(fails_at: usize) -> Failing {
        Failing {
            held: [0; 64],
            len: 0,
            writes: 0,
            fails_at,
        }
    }

    fn text(&self) -> &[u8] {
        &self.held.as_slice()[..self.len]
    }
}

impl Write for Failing {
    fn write(&mut self, buf: &[u8]) -> io::Result<usize> {
        self.writes += 1;
        if self.writes == self.fails_at {
            return Err(io::Error::from(ErrorKind::PermissionDenied));
        }
        let taken = buf.len().min(64 - self.len);
        self.held[self.len..self.len + taken].copy_from_slice(&buf[..taken]);
        self.len += taken;
        Ok(taken)
    }

    fn flush(&mut self) -> io::Result<()> {
        Ok(())
    }
}

/// No read or write of that number.
const NEVER: usize = usize::MAX;

/// A word, an input, and the output, the error output and the status of the program if nothing
/// fails.
type Run = (&'static str, &'static str, &'static str, &'static str, u8);

const RUNS: [Run; 6] = [
    ("pair", "key=value\n", "key: value\n", "", 0),
    ("pair", "key", "", "refused at 3\n", 1),
    (
        "ini",
        "[a]\r\nx = 1 ; c\n\n[b]\n",
        "section a\nx: 1\nsection b\n",
        "",
        0,
    ),
    ("ini", "[a]\nk", "", "refused at 4\n", 1),
    ("calc", "-3!+2*4", "2\n", "", 0),
    ("calc", "1 2", "", "refused at 2\n", 1),
];

/// Runs the program, and returns its status and outputs.
fn ran<A: Allocator + Copy>(
    alloc: A,
    (word, text): (&str, &str),
    (reading, writing, telling): (usize, usize, usize),
) -> (u8, Failing, Failing) {
    let mut input = Halting {
        bytes: text.as_bytes(),
        reads: 0,
        fails_at: reading,
    };
    let mut output = Failing::at(writing);
    let mut errors = Failing::at(telling);
    let status = run(alloc, &[word], &mut input, &mut output, &mut errors);
    (status, output, errors)
}

/// A run ends with this status, and writes this text and tells that one.
fn comes_to(
    rt: &impl Abort,
    row: &str,
    (status, output, errors): (u8, Failing, Failing),
    (want, text, told): (u8, &str, &str),
) {
    assert_eq!(rt; status, want, "{row:?}");
    assert_eq!(rt; output.text(), text.as_bytes(), "{row:?}");
    assert_eq!(rt; errors.text(), told.as_bytes(), "{row:?}");
}

#[test]
fn runs_without_a_fault(rt: HostRuntime) {
    for (word, text, lines, told, status) in RUNS {
        let got = ran(rt.alloc(), (word, text), (NEVER, NEVER, NEVER));
        comes_to(&rt, text, got, (status, lines, told));
    }
}

/// A reader that fails at any of its reads.
#[test]
fn readers_that_fail(rt: HostRuntime) {
    for (word, text, _, _, _) in RUNS {
        // A read a byte, and one for the end.
        for reading in 1..=text.len() + 1 {
            let got = ran(rt.alloc(), (word, text), (reading, NEVER, NEVER));
            comes_to(&rt, text, got, (2, "", "cannot read standard input\n"));
            // The errors cannot be reported either.
            let got = ran(rt.alloc(), (word, text), (reading, NEVER, 1));
            comes_to(&rt, text, got, (2, "", ""));
        }
    }
}

/// A writer that fails at its first write.
#[test]
fn writers_that_fail(rt: HostRuntime) {
    for (word, text, lines, told, status) in RUNS {
        let got = ran(rt.alloc(), (word, text), (NEVER, 1, NEVER));
        if lines.is_empty() {
            comes_to(&rt, text, got, (status, "", told));
            // An error that cannot be reported keeps its status.
            let got = ran(rt.alloc(), (word, text), (NEVER, NEVER, 1));
            comes_to(&rt, text, got, (status, "", ""));
        } else {
            comes_to(&rt, text, got, (2, "", "cannot write standard output\n"));
            let got = ran(rt.alloc(), (word, text), (NEVER, 1, 1));
            comes_to(&rt, text, got, (2, "", ""));
        }
    }
}

/// Runs the program with each allocation failing in turn, until none fails: a failure is reported,
/// or nothing if the error output fails too.
fn refused_in_turn(rt: &impl Abort, alloc: Global, (word, text, lines, told, status): Run) {
    for telling in [NEVER, 1] {
        let mut number = 0;
        let mut met = true;
        while met {
            let heap = Refusing::once(alloc, number);
            let got = ran(&heap, (word, text), (NEVER, NEVER, telling));
            met = heap.met();
            let told = if met { "out of memory\n" } else { told };
            let told = if telling == 1 { "" } else { told };
            let (status, lines) = if met { (2, "") } else { (status, lines) };
            comes_to(rt, text, got, (status, lines, told));
            number += 1;
        }
        assert!(rt; number > 1, "{text:?} asks for memory");
        // All allocations from one on fail.
        for first in 0..number - 1 {
            let heap = Refusing::always_from(alloc, first);
            let got = ran(&heap, (word, text), (NEVER, NEVER, NEVER));
            comes_to(rt, text, got, (2, "", "out of memory\n"));
        }
    }
}

#[test]
fn runs_without_memory(rt: HostRuntime) {
    for row in RUNS {
        refused_in_turn(&rt, rt.alloc(), row);
    }
}

/// The usage line and the errors of reading need no memory.
#[test]
fn what_needs_no_memory(rt: HostRuntime) {
    let heap = Refusing::always_from(rt.alloc(), 0);
    let got = ran(&heap, ("word", "key=value"), (NEVER, NEVER, NEVER));
    comes_to(&rt, "word", got, (2, "", "usage: readers pair|ini|calc\n"));
    assert!(rt; !heap.met(), "the usage line needs no memory");
    let mut input = b"key=value".as_slice();
    let mut output = Failing::at(NEVER);
    let mut errors = Failing::at(NEVER);
    let status = run(&heap, &[], &mut input, &mut output, &mut errors);
    comes_to(
        &rt,
        "no word",
        (status, output, errors),
        (2, "", "usage: readers pair|ini|calc\n"),
    );
    assert_eq!(rt; input.len(), 9, "nothing is read");
}

/// Checks the value of a formula of repeated signs and a last byte.
fn signs(
    rt: &impl Abort,
    alloc: Global,
    (count, last): (usize, u8),
    (status, text, told): (u8, &str, &str),
) {
    let mut bytes = Vec::new(alloc);
    for _ in 0..count {
        let _done = bytes.push(b'-');
    }
    let _done = bytes.push(last);
    assert_eq!(rt; bytes.len(), count + 1, "there is memory");
    let mut input = bytes.as_slice();
    let mut output = Failing::at(NEVER);
    let mut errors = Failing::at(NEVER);
    let got = run(alloc, &["calc"], &mut input, &mut output, &mut errors);
    comes_to(rt, "signs", (got, output, errors), (status, text, told));
}

/// The longest formula, which is as deep as it is long, and one byte more.
#[test]
fn the_deepest_formulas(rt: HostRuntime) {
    signs(&rt, rt.alloc(), (4_095, b'1'), (0, "-1\n", ""));
    signs(&rt, rt.alloc(), (4_094, b'1'), (0, "1\n", ""));
    signs(&rt, rt.alloc(), (4_095, b'-'), (1, "", "refused at 4096\n"));
    signs(&rt, rt.alloc(), (4_095, 0xFF), (1, "", "refused at 4095\n"));
    signs(&rt, rt.alloc(), (4_096, b'1'), (2, "", "input too long\n"));
    signs(
        &rt,
        rt.alloc(),
        (100_000, b'1'),
        (2, "", "input too long\n"),
    );
}
