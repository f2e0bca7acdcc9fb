//! Lists of hosts with optional ports, as `example.org:8080, localhost`.

use std::alloc::Global;
use winnow::Func;
use winnow::ascii::impls::{DecUint, Space0};
use winnow::combinator::{cut_err, opt, preceded, separated};
use winnow::error::{EmptyError, ErrMode, ParseFault};
use winnow::prelude::*;
use winnow::token::take_while;

/// A host, and a port if one is given.
#[derive(Clone, Copy, Debug, PartialEq, Eq)]
struct Endpoint<'i> {
    host: &'i str,
    port: Option<u16>,
}

/// Parses one host.
fn read_endpoint<'i>(input: &mut &'i str) -> Result<Endpoint<'i>, ErrMode<EmptyError>> {
    let in_host = ('a'..='z', 'A'..='Z', '0'..='9', '-', '.');
    let host = take_while(1.., in_host).parse_next(input)?;
    let port = opt(preceded(':', cut_err(DecUint))).parse_next(input)?;
    Ok(Endpoint { host, port })
}

/// Parses a whole text as a list.
fn read_endpoints<'i>(
    alloc: Global,
    text: &'i str,
) -> Result<Vec<Endpoint<'i>>, ParseFault<&'i str, EmptyError>> {
    let mut list = separated(alloc, 1.., Func(read_endpoint), (',', Space0));
    Parser::<_, _, ErrMode<_>>::parse(&mut list, text)
}

#[test]
fn endpoints(rt: HostRuntime) {
    let rows = [
        ("localhost", [Some(("localhost", None)), None]),
        ("a.example:80", [Some(("a.example", Some(80))), None]),
        (
            "a:0,b-2:65535",
            [Some(("a", Some(0))), Some(("b-2", Some(65535)))],
        ),
        (
            "127.0.0.1, b:1",
            [Some(("127.0.0.1", None)), Some(("b", Some(1)))],
        ),
    ];
    for (text, wanted) in rows {
        match read_endpoints(rt.alloc(), text) {
            Ok(list) => {
                let mut found = [None, None];
                for (at, it) in list.iter().enumerate() {
                    found[at] = Some((it.host, it.port));
                }
                assert_eq!(rt; found, wanted);
            }
            Err(_) => assert!(rt; false),
        }
    }
}

#[test]
fn errors(rt: HostRuntime) {
    for (text, offset) in [
        ("", 0),
        ("a:", 2),
        ("a:65536", 2),
        ("a:80,", 4),
        ("a:80,b;", 6),
    ] {
        match read_endpoints(rt.alloc(), text) {
            Err(ParseFault::Invalid(error)) => assert_eq!(rt; error.offset(), offset),
            _ => assert!(rt; false),
        }
    }
}
