//! Heads of requests of HTTP/1.1.
use std::alloc::Global;
use std::fmt::Debug;
use std::process::Abort;
use test_support::refusing::Refusing;
use format_http::heads::field_line::Field;
use format_http::heads::head::{Head, read_head};
use winnow::error::{EmptyError, ErrMode, ParserError};

/// A text, the method and the target of its head, its fields, and the rest.
type Row = (
    &'static [u8],
    &'static [u8],
    &'static [u8],
    &'static [(&'static [u8], &'static [u8])],
    &'static [u8],
);

/// The request of RFC 9110, section 3.9.
const HELLO: &[u8] = b"GET /hello.txt HTTP/1.1\r\nUser-Agent: curl/7.64.1\r\n\
Host: www.example.com\r\nAccept-Language: en, mi\r\n\r\n";

/// The request of RFC 9112, section 3.2.1.
const WHERE: &[u8] = b"GET /where?q=now HTTP/1.1\r\nHost: www.example.org\r\n\r\n";

/// These two, and some at the edges of the grammar.
const HEADS: &[Row] = &[
    (
        HELLO,
        b"GET",
        b"/hello.txt",
        &[
            (b"User-Agent", b"curl/7.64.1"),
            (b"Host", b"www.example.com"),
            (b"Accept-Language", b"en, mi"),
        ],
        b"",
    ),
    (WHERE, b"GET", b"/where?q=now", &[(b"Host", b"www.example.org")], b""),
    (b"A b HTTP/1.1\r\n\r\n", b"A", b"b", &[], b""),
    (b"A b HTTP/1.1\r\n\r\n\r\n", b"A", b"b", &[], b"\r\n"),
    (
        b"PUT /x HTTP/1.1\r\nX: 1\r\nX:\t2 \r\nY:\r\n\r\nX: 3\r\n\r\n",
        b"PUT",
        b"/x",
        &[(b"X", b"1"), (b"X", b"2"), (b"Y", b"")],
        b"X: 3\r\n\r\n",
    ),
];

/// Texts that do not start with a head: an invalid line, whitespace before a name, or an invalid
/// line ending.
const NO_HEADS: &[&[u8]] = &[
    b"\r\nA b HTTP/1.1\r\n\r\n",
    b"A  b HTTP/1.1\r\n\r\n",
    b"A b HTTP/1.1\n\n",
    b"A b HTTP/1.1\r\n\n",
    b"A b HTTP/1.1\r\n\r\r\n",
    b"A b HTTP/1.1\r\nX: 1\r\n\n",
    b"A b HTTP/1.1\r\nX: 1\n\r\n",
    b"A b HTTP/1.1\r\n X: 1\r\n\r\n",
    b"A b HTTP/1.1\r\nX: 1\r\n 2\r\n\r\n",
    b"A b HTTP/1.1\r\nX : 1\r\n\r\n",
    b"A b HTTP/1.1\r\nX\r\n\r\n",
    b"A b HTTP/1.1\r\nX: 1\r\n: 2\r\n\r\n",
];

fn same<T: PartialEq + Debug + Drop>(rt: &impl Abort, row: &[u8], got: T, want: T) {
    assert_eq!(rt; got, want, "{row:?}");
}

/// Checks that a reader returned the head of the row.
fn is_head(rt: &impl Abort, row: &Row, answer: Result<Head<'_, Global>, ErrMode<EmptyError>>) {
    let (text, method, target, fields, _) = row;
    match answer {
        Ok(head) => {
            same(rt, text, head.line.method, *method);
            same(rt, text, head.line.target, *target);
            same(rt, text, (head.line.major, head.line.minor), (1, 1));
            same(rt, text, head.fields.len(), fields.len());
            for (field, (name, value)) in head.fields.iter().zip(fields.iter()) {
                same(rt, text, *field, Field { name: *name, value: *value });
            }
        }
        Err(error) => same(rt, text, Err(error), Ok(())),
    }
}

#[test]
fn read_head_of_heads(rt: HostRuntime) {
    for row in HEADS {
        let (text, _, _, _, rest) = row;
        let mut input = *text;
        is_head(&rt, row, read_head(rt.alloc(), &mut input));
        same(&rt, text, input, *rest);
    }
}

#[test]
fn read_head_of_none(rt: HostRuntime) {
    for text in NO_HEADS {
        let mut input = *text;
        let answer = read_head(rt.alloc(), &mut input);
        same(&rt, text, matches!(answer, Err(ErrMode::Backtrack(_))), true);
        same(&rt, text, input, *text);
    }
}

#[test]
fn read_head_of_each_beginning(rt: HostRuntime) {
    for text in [HELLO, WHERE] {
        for count in 0..text.len() {
            let begun = &text[..count];
            let mut input = begun;
            let whole = read_head(rt.alloc(), &mut input);
            same(&rt, begun, matches!(whole, Err(ErrMode::Backtrack(_))), true);
            same(&rt, begun, input, begun);
        }
    }
}

/// Returns whether a reader failed with out of memory.
fn was_refused<T>(answer: &Result<T, ErrMode<EmptyError>>) -> bool {
    matches!(answer, Err(error) if ParserError::<&[u8]>::is_memory(error))
}

#[test]
fn read_head_refused_memory(rt: HostRuntime) {
    let mut met = true;
    let mut n = 0u64;
    while met {
        let heap: Refusing<Global> = Refusing::once(rt.alloc(), n);
        let mut input = HELLO;
        let answer = read_head(&heap, &mut input);
        met = heap.met();
        same(&rt, HELLO, was_refused(&answer), met);
        same(&rt, HELLO, answer.is_ok(), !met);
        n += 1;
    }
    assert!(rt; n > 1);
}
