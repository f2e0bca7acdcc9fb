//! Arguments, and allocation failures.
use crate::runs::USAGE;
use readers::program::serve;
use std::alloc::Global;
use std::env::{Env, FillError};
use std::process::{Abort, ExitCode};
use test_support::refusing::Refusing;

/// The arguments of a test, including the program's name.
#[derive(Drop)]
struct Arguments<'a> {
    all: &'a [&'a [u8]],
}

impl Env for Arguments<'_> {
    fn arg(&self, i: usize, buf: &mut [u8]) -> Result<usize, FillError> {
        match self.all.get(i) {
            None => Err(FillError::NotPresent),
            Some(word) => {
                if buf.len() < word.len() {
                    return Err(FillError::TooLong);
                }
                buf[..word.len()].copy_from_slice(word);
                Ok(word.len())
            }
        }
    }

    fn var(&self, _name: &str, _buf: &mut [u8]) -> Result<usize, FillError> {
        Err(FillError::NotPresent)
    }

    fn var_at(&self, _i: usize, _buf: &mut [u8]) -> Result<usize, FillError> {
        Err(FillError::NotPresent)
    }
}

/// Runs the program on these arguments and bytes, with allocation `n` failing, and returns whether
/// it failed. If it did, the program must report out of memory; otherwise it must end as given.
fn serves(
    rt: &impl Abort,
    alloc: Global,
    n: u64,
    (all, text): (&[&[u8]], &str),
    (lines, error, status): (&str, &str, u8),
) -> bool {
    let heap = Refusing::once(alloc, n);
    let mut input = text.as_bytes();
    let mut output = Vec::new(alloc);
    let mut errors = Vec::new(alloc);
    let got = serve(
        &(Arguments { all }, &heap),
        &mut input,
        &mut output,
        &mut errors,
    );
    let (lines, error, status) = if heap.met() {
        ("", "out of memory\n", 2)
    } else {
        (lines, error, status)
    };
    assert_eq!(rt; got, ExitCode::from(status), "{text:?}");
    assert_eq!(rt; output.as_slice(), lines.as_bytes(), "{text:?}");
    assert_eq!(rt; errors.as_slice(), error.as_bytes(), "{text:?}");
    if error == USAGE {
        assert_eq!(rt; input.len(), text.len(), "nothing is read");
    }
    heap.met()
}

#[test]
fn arguments_that_are_refused(rt: HostRuntime) {
    let name = b"readers".as_slice();
    let pair = b"pair".as_slice();
    let no_text = b"\xFF".as_slice();
    for all in [
        &[] as &[&[u8]],
        &[name],
        &[name, no_text],
        &[name, pair, no_text],
        &[name, pair, pair],
    ] {
        let met = serves(
            &rt,
            rt.alloc(),
            u64::MAX,
            (all, "key=value"),
            ("", USAGE, 2),
        );
        assert_eq!(rt; met, false, "the usage line");
    }
}

#[test]
fn refused_memory(rt: HostRuntime) {
    let document = "[a]\r\nx = 1 ; c\n\n[b]\n";
    let rows = [
        ("pair", "key=value\n", "key: value\n", "", 0),
        ("pair", "key", "", "refused at 3\n", 1),
        ("ini", document, "section a\nx: 1\nsection b\n", "", 0),
        ("ini", "[a]\nx", "", "refused at 4\n", 1),
        ("calc", "-3!+2*4", "2\n", "", 0),
        ("calc", "1=2=1", "", "refused at 3\n", 1),
    ];
    for (word, text, lines, error, status) in rows {
        let all = [b"readers".as_slice(), word.as_bytes()];
        let mut is_done = false;
        for n in 0..100u64 {
            if !serves(&rt, rt.alloc(), n, (&all, text), (lines, error, status)) {
                assert!(rt; 2 < n, "the words take memory");
                is_done = true;
                break;
            }
        }
        assert!(rt; is_done);
    }
}
