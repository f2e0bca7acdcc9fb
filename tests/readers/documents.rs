//! Tables of documents.
use crate::runs::{answers, ran};
use readers::fault::ReadError;
use readers::ini::{category, document, key_value};
use std::alloc::Global;
use std::process::Abort;
use std::test::Fail;
use test_support::refusing::Refusing;

/// Checks the lines or the error of a run over a document, and the status.
fn reads(rt: &impl Abort, alloc: Global, bytes: &[u8], lines: &str, error: &str, want: u8) {
    answers(rt, alloc, (&["ini"], bytes), (lines, error, want));
}

#[test]
fn documents(rt: HostRuntime) {
    let rows = [
        ("[a]\r\nx = 1 ; c\n\n[b]\n", "section a\nx: 1\nsection b\n"),
        ("", ""),
        ("[a]\nx=1\nx=2\n", "section a\nx: 1\nx: 2\n"),
        ("[a] x= ", "section a\nx: \n"),
        ("[]", "section \n"),
        ("; only a comment", ""),
        ("[a]\r\nx=1\r\ny=2\r\n", "section a\nx: 1\ny: 2\n"),
        ("[a]\nx=1=2\n", "section a\nx: 1=2\n"),
        ("[a]\nx=;c\n", "section a\nx: \n"),
        ("[a b c]\n", "section a b c\n"),
        ("[é]\nk=ü ß\n", "section é\nk: ü ß\n"),
        ("[a][b]", "section a\nsection b\n"),
        ("[a]x=1", "section a\nx: 1\n"),
        ("[a]\nx=[1]\n", "section a\nx: [1]\n"),
        (" \t\r\n", ""),
        ("[a]\nx \t=\t 1 2\t\r \r\n", "section a\nx: 1 2\n"),
        ("[a]\nx=\r1\n", "section a\nx: \r1\n"),
        ("[a]\nx=1\u{c}\n", "section a\nx: 1\u{c}\n"),
        ("\n;c\n[a];d\n;e\nx=1;f", "section a\nx: 1\n"),
    ];
    for (text, lines) in rows {
        reads(&rt, rt.alloc(), text.as_bytes(), lines, "", 0);
    }
    let refusals = [
        ("[a]\nk", "refused at 4\n"),
        ("x=1", "refused at 0\n"),
        ("[a", "refused at 0\n"),
        ("; c\nx=1\n[a]", "refused at 4\n"),
        ("[a\n]", "refused at 0\n"),
        ("[a]\nx=1\nx y=1\n", "refused at 8\n"),
        ("[a]]", "refused at 3\n"),
        ("[a]\n=1", "refused at 4\n"),
        ("[a]\nx=1;c\n.", "refused at 10\n"),
    ];
    for (text, error) in refusals {
        reads(&rt, rt.alloc(), text.as_bytes(), "", error, 1);
    }
}

#[test]
fn bytes_that_are_no_text(rt: HostRuntime) {
    let alloc = rt.alloc();
    reads(&rt, alloc, b"[a]\nk=\xFF", "", "refused at 4\n", 1);
    reads(&rt, alloc, b"\n[\xFF]\n", "", "refused at 1\n", 1);
    reads(
        &rt,
        alloc,
        b"[a]\n;\xFF\nx=1;\xFE",
        "section a\nx: 1\n",
        "",
        0,
    );
}

#[test]
fn parts(rt: HostRuntime) {
    let pair = "parameter=value;abc\nkey = value2";
    let name = "[category]\n\nparameter=value\nkey = value2";
    for (text, want, left) in [
        (pair, Some(("parameter", "value")), "\nkey = value2"),
        ("a:b", None, "a:b"),
        ("a =", Some(("a", "")), ""),
        (" a=b", None, " a=b"),
        ("a \n=", None, "a \n="),
    ] {
        let mut rest = text.as_bytes();
        assert_eq!(rt; key_value(&mut rest).ok(), want, "{text:?}");
        assert_eq!(rt; rest, left.as_bytes(), "{text:?}");
    }
    for (text, want, left) in [
        (name, Some("category"), "\n\nparameter=value\nkey = value2"),
        ("a]", None, "a]"),
        ("[a", None, "[a"),
        ("[a\n]", None, "[a\n]"),
    ] {
        let mut rest = text.as_bytes();
        assert_eq!(rt; category(&mut rest).ok(), want, "{text:?}");
        assert_eq!(rt; rest, left.as_bytes(), "{text:?}");
    }
}

/// So many times a line.
fn times(alloc: Global, line: &[u8], times: usize) -> Result<Vec<u8>, Fail> {
    let all = line.len() * times;
    let mut bytes = Vec::new(alloc);
    bytes.extend_from_slice(line)?;
    while bytes.len() < all {
        let copy = bytes.clone()?;
        let more = copy.len().min(all - copy.len());
        bytes.extend_from_slice(&copy[..more])?;
    }
    Ok(bytes)
}

/// Returns how many bytes are written for a document of a first part and repeated lines.
fn written(
    rt: &impl Abort,
    alloc: Global,
    front: &[u8],
    (line, count): (&[u8], usize),
) -> Result<usize, Fail> {
    let mut bytes = Vec::new(alloc);
    bytes.extend_from_slice(front)?;
    bytes.extend_from_slice(times(alloc, line, count)?.as_slice())?;
    let (status, output, errors) = ran(alloc, &["ini"], bytes.as_slice());
    assert_eq!(rt; errors.len(), 0, "no error");
    assert_eq!(rt; status, 0, "written");
    Ok(output.len())
}

// Long documents, each by a test of its own: those of one part have 1 MiB.

#[test]
fn as_many_pairs(rt: HostRuntime) -> Result<(), Fail> {
    // in one section, each a line `k: v` and a line feed
    let got = written(&rt, rt.alloc(), b"[a]\n", (b"k=v\n", 20_000))?;
    assert_eq!(rt; got, 10 + 20_000 * 5, "pairs");
    Ok(())
}

#[test]
fn as_many_sections(rt: HostRuntime) -> Result<(), Fail> {
    let got = written(&rt, rt.alloc(), b"", (b"[a]\n", 10_000))?;
    assert_eq!(rt; got, 10_000 * 10, "sections");
    Ok(())
}

#[test]
fn as_long_a_comment(rt: HostRuntime) -> Result<(), Fail> {
    let got = written(&rt, rt.alloc(), b";", (b"c", 1_048_575))?;
    assert_eq!(rt; got, 0, "a comment");
    Ok(())
}

#[test]
fn as_long_a_line(rt: HostRuntime) -> Result<(), Fail> {
    let got = written(&rt, rt.alloc(), b"[a]k=", (b"v", 1_048_571))?;
    assert_eq!(rt; got, 10 + 3 + 1_048_571 + 1, "a line");
    Ok(())
}

#[test]
fn a_byte_too_many(rt: HostRuntime) -> Result<(), Fail> {
    let alloc = rt.alloc();
    let mut longest = vec![in alloc; b' '; 1_048_577]?;
    reads(&rt, alloc, longest.as_slice(), "", "input too long\n", 2);
    let _last = longest.pop();
    reads(&rt, alloc, longest.as_slice(), "", "", 0);
    Ok(())
}

/// Returns the number of sections of a document, with allocation `n` failing, and whether it
/// failed.
fn counted(alloc: Global, n: u64, text: &str) -> (Result<usize, ReadError>, bool) {
    let heap = Refusing::once(alloc, n);
    let got = match document(&heap, text.as_bytes()) {
        Ok(sections) => Ok(sections.len()),
        Err(fault) => Err(fault),
    };
    (got, heap.met())
}

#[test]
fn refused_lists(rt: HostRuntime) {
    for (text, sections) in [
        ("[a]\r\nx = 1 ; c\n\n[b]\n", 2),
        ("[a]\nx=1\ny=2\nz=3\n[b]\n[c]\nx=1\n", 3),
    ] {
        let mut is_done = false;
        for n in 0..100u64 {
            let (got, is_refused) = counted(rt.alloc(), n, text);
            if !is_refused {
                assert!(rt; n > 0, "memory is asked for");
                assert_eq!(rt; got, Ok(sections), "{text:?}");
                is_done = true;
                break;
            }
            assert_eq!(rt; got, Err(ReadError::NoMemory), "{text:?}");
        }
        assert!(rt; is_done);
    }
}

/// Sections are compared by their names and pairs, and shown with them.
#[test]
fn sections(rt: HostRuntime) -> Result<(), Fail> {
    let alloc = rt.alloc();
    let same = document(alloc, b"[a]\nk=v\n[a]k=v").unwrap_or(Vec::new(alloc));
    assert_eq!(rt; same.len(), 2);
    assert!(rt; same[0] == same[1]);
    for other in ["[b]\nk=v", "[a]\nk=w", "[a]\nl=v", "[a]", "[a]\nk=v\nk=v"] {
        let others = document(alloc, other.as_bytes()).unwrap_or(Vec::new(alloc));
        assert_eq!(rt; others.len(), 1);
        assert!(rt; same[0] != others[0], "{other:?}");
    }
    let shown = format!(in alloc; "{:?}", same[0])?;
    assert_eq!(rt;
        shown.as_str(),
        "Section { name: \"a\", pairs: [(\"k\", \"v\")] }"
    );
    Ok(())
}

#[test]
fn faults(rt: HostRuntime) -> Result<(), Fail> {
    assert_eq!(rt; ReadError::Invalid(1), ReadError::Invalid(1));
    assert!(rt; ReadError::Invalid(1) != ReadError::Invalid(2));
    assert!(rt; ReadError::Invalid(1) != ReadError::NoMemory);
    let shown = format!(in rt.alloc(); "{:?} {:?}", ReadError::Invalid(7), ReadError::NoMemory)?;
    assert_eq!(rt; shown.as_str(), "Invalid(7) NoMemory");
    Ok(())
}
