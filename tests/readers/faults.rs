//! Errors of reading and writing.
use crate::runs::USAGE;
use readers::program::{Outcome, run_and_tell};
use std::alloc::Global;
use std::io;
use std::io::{ErrorKind, Read, Write};
use std::process::Abort;

/// A reader of bytes. Each read is interrupted once before it succeeds; after `reads` reads it
/// fails.
#[derive(Drop)]
struct Halting<'a> {
    bytes: &'a [u8],
    reads: usize,
    was_interrupted: bool,
}

impl Read for Halting<'_> {
    fn read(&mut self, buf: &mut [u8]) -> io::Result<usize> {
        self.was_interrupted = !self.was_interrupted;
        if self.was_interrupted {
            return Err(io::Error::from(ErrorKind::Interrupted));
        }
        if self.reads == 0 {
            return Err(io::Error::from(ErrorKind::PermissionDenied));
        }
        self.reads -= 1;
        self.bytes.read(buf)
    }
}

/// How a writer takes bytes.
#[derive(Clone, Copy)]
struct Habit {
    /// How many bytes it takes at most in one write.
    step: usize,
    /// How many bytes it has room for.
    room: usize,
    /// Whether a write without room is `Ok(0)`, and else an error.
    is_silent: bool,
}

/// A writer that takes all.
const FREE: Habit = Habit {
    step: usize::MAX,
    room: usize::MAX,
    is_silent: false,
};

/// A writer with room for a number of bytes.
const fn room(room: usize) -> Habit {
    Habit { room, ..FREE }
}

/// A writer of a habit. Each write is interrupted once before it is done. The first write without
/// room fails, and later ones find room: so a run that tries again is found out. No flush succeeds.
#[derive(Drop)]
struct Limited {
    held: Vec<u8>,
    habit: Habit,
    was_interrupted: bool,
}

impl Limited {
    fn new(alloc: Global, habit: Habit) -> Limited {
        Limited {
            held: Vec::new(alloc),
            habit,
            was_interrupted: false,
        }
    }
}

impl Write for Limited {
    fn write(&mut self, buf: &[u8]) -> io::Result<usize> {
        self.was_interrupted = !self.was_interrupted;
        if self.was_interrupted {
            return Err(io::Error::from(ErrorKind::Interrupted));
        }
        let taken = buf.len().min(self.habit.step).min(self.habit.room);
        if taken == 0 {
            self.habit.room = usize::MAX;
            if self.habit.is_silent {
                return Ok(0);
            }
            return Err(io::Error::from(ErrorKind::PermissionDenied));
        }
        self.habit.room -= taken;
        self.held.extend_from_slice(&buf[..taken])?;
        Ok(taken)
    }

    fn flush(&mut self) -> io::Result<()> {
        Err(io::Error::from(ErrorKind::PermissionDenied))
    }
}

/// A run of the word over a reader and two writers comes to this.
fn comes_to(
    rt: &impl Abort,
    alloc: Global,
    (word, text, reads): (&str, &str, usize),
    (out, err): (Habit, Habit),
    (status, is_told, lines, error): (u8, bool, &str, &str),
) {
    let mut input = Halting {
        bytes: text.as_bytes(),
        reads,
        was_interrupted: false,
    };
    let mut output = Limited::new(alloc, out);
    let mut errors = Limited::new(alloc, err);
    let got = run_and_tell(alloc, &[word], &mut input, &mut output, &mut errors);
    assert_eq!(rt; got, Outcome { status, is_told }, "{error:?}");
    assert_eq!(rt; output.held.as_slice(), lines.as_bytes(), "{error:?}");
    assert_eq!(rt; errors.held.as_slice(), error.as_bytes(), "{error:?}");
}

#[test]
fn faults_of_reading(rt: HostRuntime) {
    let error = "cannot read standard input\n";
    for reads in 0..2 {
        comes_to(
            &rt,
            rt.alloc(),
            ("pair", "key=value\n", reads),
            (FREE, FREE),
            (2, true, "", error),
        );
    }
}

#[test]
fn faults_of_writing(rt: HostRuntime) {
    let by_one = Habit { step: 1, ..FREE };
    let silent = Habit {
        is_silent: true,
        ..room(10)
    };
    let unwritten = "cannot write standard output\n";
    let rows = [
        // the line of a pair, of 11 bytes
        (FREE, FREE, 0, true, "key: value\n", ""),
        (by_one, FREE, 0, true, "key: value\n", ""),
        (room(10), FREE, 2, true, "key: value", unwritten),
        (silent, FREE, 2, true, "key: value", unwritten),
        (room(0), FREE, 2, true, "", unwritten),
        (room(0), by_one, 2, true, "", unwritten),
        (room(0), room(6), 2, false, "", "cannot"),
    ];
    for (out, err, status, is_told, lines, error) in rows {
        comes_to(
            &rt,
            rt.alloc(),
            ("pair", "key=value\n", 2),
            (out, err),
            (status, is_told, lines, error),
        );
    }
}

#[test]
fn faults_of_errors(rt: HostRuntime) {
    let by_one = Habit { step: 1, ..FREE };
    let refused = "refused at 0\n";
    let rows = [
        // an error message of 13 bytes
        ("pair", by_one, 1, true, refused),
        ("pair", room(12), 1, false, "refused at 0"),
        ("pair", room(0), 1, false, ""),
        // the usage line, of 29 bytes
        ("sums", by_one, 2, true, USAGE),
        ("sums", room(28), 2, false, "usage: readers pair|ini|calc"),
        ("sums", room(0), 2, false, ""),
    ];
    for (word, err, status, is_told, error) in rows {
        comes_to(
            &rt,
            rt.alloc(),
            (word, "=", 2),
            (FREE, err),
            (status, is_told, "", error),
        );
    }
}
