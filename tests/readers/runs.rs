//! Runs of the program over bytes: the reader of pairs, words and limits.
use readers::run;
use std::alloc::Global;
use std::process::Abort;
use std::test::Fail;

/// The words of the usage line.
pub(crate) const USAGE: &str = "usage: readers pair|ini|calc\n";

/// Runs the program on bytes, and returns the status and both outputs.
pub(crate) fn ran(alloc: Global, words: &[&str], bytes: &[u8]) -> (u8, Vec<u8>, Vec<u8>) {
    let mut input = bytes;
    let mut output = Vec::new(alloc);
    let mut errors = Vec::new(alloc);
    let status = run(alloc, words, &mut input, &mut output, &mut errors);
    (status, output, errors)
}

/// A run over bytes writes these lines, or this error, with this status.
pub(crate) fn answers(
    rt: &impl Abort,
    alloc: Global,
    (words, bytes): (&[&str], &[u8]),
    (lines, error, want): (&str, &str, u8),
) {
    let (status, output, errors) = ran(alloc, words, bytes);
    let label = if lines.is_empty() { error } else { lines };
    assert_eq!(rt; output.as_slice(), lines.as_bytes(), "{label:?}");
    assert_eq!(rt; errors.as_slice(), error.as_bytes(), "{label:?}");
    assert_eq!(rt; status, want, "{label:?}");
}

#[test]
fn pairs(rt: HostRuntime) {
    let rows = [
        ("key=value\n", "key: value\n", "", 0),
        ("key=value", "key: value\n", "", 0),
        ("=x", "", "refused at 0\n", 1),
        ("key", "", "refused at 3\n", 1),
        ("a=", "a: \n", "", 0),
        ("a=b=c\n", "a: b=c\n", "", 0),
        ("a=b\nc", "", "refused at 4\n", 1),
        ("a=b\n\n", "", "refused at 4\n", 1),
        ("", "", "refused at 0\n", 1),
        ("a b=c", "", "refused at 1\n", 1),
        ("Z9=\r\n", "Z9: \r\n", "", 0),
    ];
    for (text, line, error, status) in rows {
        let words = ["pair"];
        answers(
            &rt,
            rt.alloc(),
            (&words, text.as_bytes()),
            (line, error, status),
        );
    }
}

/// Checks that the words are rejected with the usage line, without reading input.
fn refuses_words(rt: &impl Abort, alloc: Global, words: &[&str]) {
    let mut input = b"key=value".as_slice();
    let mut output = Vec::new(alloc);
    let mut errors = Vec::new(alloc);
    let status = run(alloc, words, &mut input, &mut output, &mut errors);
    assert_eq!(rt; status, 2, "the usage line");
    assert_eq!(rt; input.len(), 9, "nothing is read");
    assert_eq!(rt; output.len(), 0, "the usage line");
    assert_eq!(rt; errors.as_slice(), USAGE.as_bytes(), "the usage line");
}

#[test]
fn wrong_words(rt: HostRuntime) {
    refuses_words(&rt, rt.alloc(), &[]);
    refuses_words(&rt, rt.alloc(), &["pairs"]);
    refuses_words(&rt, rt.alloc(), &["pair", "pair"]);
    refuses_words(&rt, rt.alloc(), &["PAIR"]);
    refuses_words(&rt, rt.alloc(), &[""]);
    refuses_words(&rt, rt.alloc(), &["ini", "ini"]);
    refuses_words(&rt, rt.alloc(), &["calc", "pair"]);
}

#[test]
fn limits(rt: HostRuntime) -> Result<(), Fail> {
    let mut longest = vec![in rt.alloc(); b'a'; 1_048_577]?;
    for (error, status) in [("input too long\n", 2), ("refused at 1048576\n", 1)] {
        let words = ["pair"];
        answers(
            &rt,
            rt.alloc(),
            (&words, longest.as_slice()),
            ("", error, status),
        );
        let _last = longest.pop();
    }
    Ok(())
}
