//! Lines of a web server's log in the common log format, as Apache's documentation describes it
//! (`mod_log_config`).

use std::alloc::Global;
use winnow::Func;
use winnow::ascii::impls::{DecUint, Newline};
use winnow::ascii::take_escaped;
use winnow::combinator::{delimited, repeat, terminated};
use winnow::error::{EmptyError, ErrMode, ParseFault};
use winnow::prelude::*;
use winnow::token::impls::Any;
use winnow::token::{take_till, take_while};

/// A request, and its response.
#[derive(Clone, Copy, Debug, PartialEq, Eq)]
struct Entry<'i> {
    host: &'i str,
    user: Option<&'i str>,
    time: &'i str,
    /// The line of the request, with its escapes.
    request: &'i str,
    status: u16,
    size: Option<u64>,
}

/// Parses a word.
fn read_word<'i>(input: &mut &'i str) -> ModalResult<&'i str> {
    take_till(1.., (' ', '\n')).parse_next(input)
}

/// Parses a word, or a hyphen for one that is not available.
fn read_user<'i>(input: &mut &'i str) -> ModalResult<Option<&'i str>> {
    match read_word(input)? {
        "-" => Ok(None),
        word => Ok(Some(word)),
    }
}

/// Parses a time in brackets.
fn read_time<'i>(input: &mut &'i str) -> ModalResult<&'i str> {
    delimited('[', take_till(1.., (']', '\n')), ']').parse_next(input)
}

/// Parses a request in quotes; a backslash precedes a quote or a backslash in it.
fn read_request<'i>(input: &mut &'i str) -> ModalResult<&'i str> {
    let text = take_escaped(take_till(1.., ('"', '\\', '\n')), '\\', Any);
    delimited('"', text, '"').parse_next(input)
}

/// Parses a status of three digits.
fn read_status(input: &mut &str) -> ModalResult<u16> {
    take_while(3, '0'..='9').parse_to().parse_next(input)
}

/// Parses a number of bytes, or a hyphen for none.
fn read_size(input: &mut &str) -> ModalResult<Option<u64>> {
    match read_user(input)? {
        None => Ok(None),
        Some(mut digits) => {
            let size = DecUint.parse_next(&mut digits)?;
            Ok(Some(size))
        }
    }
}

/// Parses a line, without its end.
fn read_entry<'i>(input: &mut &'i str) -> ModalResult<Entry<'i>> {
    let host = terminated(Func(read_word), ' ').parse_next(input)?;
    let _ident = terminated(Func(read_user), ' ').parse_next(input)?;
    let user = terminated(Func(read_user), ' ').parse_next(input)?;
    let time = terminated(Func(read_time), ' ').parse_next(input)?;
    let request = terminated(Func(read_request), ' ').parse_next(input)?;
    let status = terminated(Func(read_status), ' ').parse_next(input)?;
    let size = read_size(input)?;
    Ok(Entry {
        host,
        user,
        time,
        request,
        status,
        size,
    })
}

/// Parses a whole log.
fn read_log<'i>(
    alloc: Global,
    text: &'i str,
) -> Result<Vec<Entry<'i>>, ParseFault<&'i str, EmptyError>> {
    let mut lines = repeat(alloc, 0.., terminated(Func(read_entry), Newline));
    Parser::<_, _, ErrMode<_>>::parse(&mut lines, text)
}

// The first line is the documentation's example.
#[test]
fn entries(rt: HostRuntime) {
    let text = "127.0.0.1 - frank [10/Oct/2000:13:55:36 -0700] \
        \"GET /apache_pb.gif HTTP/1.0\" 200 2326\n\
        ::1 - - [10/Oct/2000:13:55:37 -0700] \"GET /\\\"a\\\\ HTTP/1.0\" 304 -\n";
    let first = Entry {
        host: "127.0.0.1",
        user: Some("frank"),
        time: "10/Oct/2000:13:55:36 -0700",
        request: "GET /apache_pb.gif HTTP/1.0",
        status: 200,
        size: Some(2326),
    };
    let second = Entry {
        host: "::1",
        user: None,
        time: "10/Oct/2000:13:55:37 -0700",
        request: "GET /\\\"a\\\\ HTTP/1.0",
        status: 304,
        size: None,
    };
    let log = read_log(rt.alloc(), text);
    assert!(rt; matches!(&log, Ok(log) if log.as_slice() == [first, second].as_slice()));
    assert!(rt; matches!(read_log(rt.alloc(), ""), Ok(log) if log.is_empty()));
}

// The offset is that of the first line that is invalid, since a list ends before it.
#[test]
fn invalid_lines(rt: HostRuntime) {
    let good = "h - - [t] \"r\" 200 1\n";
    for bad in [
        "h - - [t] \"r\" 20 1\n",
        "h - - [t] \"r\" 2000 1\n",
        "h - - [t] \"r\" 200 x\n",
        "h - - [t] \"r\" 200 18446744073709551616\n",
        "h - - [t] \"r\\\" 200 1\n",
        "h - - t \"r\" 200 1\n",
        "h - - [t] \"r\" 200\n",
        "h - - [t] \"r\" 200 1",
        "\n",
    ] {
        let text = format!(in rt.alloc(); "{good}{bad}");
        let Ok(text) = text else { return };
        match read_log(rt.alloc(), text.as_str()) {
            Err(ParseFault::Invalid(error)) => assert_eq!(rt; error.offset(), good.len()),
            _ => assert!(rt; false),
        }
    }
}
