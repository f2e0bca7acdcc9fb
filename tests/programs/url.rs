//! URIs of RFC 3986, without checks of `%` and of IP addresses. Sections are those of the RFC.

use winnow::ascii::impls::Digit0;
use winnow::combinator::{alt, opt, preceded, terminated};
use winnow::error::{EmptyError, ErrMode, ParseFault};
use winnow::prelude::*;
use winnow::stream::Pred;
use winnow::token::{one_of, take_till, take_while};
use winnow::{Func, FuncWith};

/// The parts of a URI (3).
#[derive(Clone, Copy, Debug, PartialEq, Eq)]
struct Uri<'i> {
    scheme: &'i str,
    authority: Option<Authority<'i>>,
    path: &'i str,
    query: Option<&'i str>,
    fragment: Option<&'i str>,
}

/// The parts of an authority (3.2).
#[derive(Clone, Copy, Debug, PartialEq, Eq)]
struct Authority<'i> {
    user: Option<&'i str>,
    host: &'i str,
    port: Option<&'i str>,
}

/// Parses a scheme (3.1).
fn read_scheme<'i>(input: &mut &'i str) -> ModalResult<&'i str> {
    let first = one_of(('a'..='z', 'A'..='Z'));
    let others = take_while(0.., ('a'..='z', 'A'..='Z', '0'..='9', '+', '-', '.'));
    (first, others).take().parse_next(input)
}

/// Parses user information (3.2.1).
fn read_user<'i>(input: &mut &'i str) -> ModalResult<&'i str> {
    terminated(take_till(0.., ('@', '/', '?', '#')), '@').parse_next(input)
}

/// Parses a host (3.2.2). The brackets of an IP literal are part of it.
fn read_host<'i>(input: &mut &'i str) -> ModalResult<&'i str> {
    let literal = (
        '[',
        take_while(1.., ('0'..='9', 'a'..='f', 'A'..='F', ':', '.')),
        ']',
    )
        .take();
    alt((literal, take_till(0.., (':', '/', '?', '#', '[', ']')))).parse_next(input)
}

/// Parses a port (3.2.3). It may be empty.
fn read_port<'i>(input: &mut &'i str) -> ModalResult<&'i str> {
    preceded(':', Digit0).parse_next(input)
}

/// Parses an authority.
fn read_authority<'i>(input: &mut &'i str) -> ModalResult<Authority<'i>> {
    let user = opt(Func(read_user)).parse_next(input)?;
    let host = read_host(input)?;
    let port = opt(Func(read_port)).parse_next(input)?;
    Ok(Authority { user, host, port })
}

/// Parses a path (3.3). After an authority it is empty or begins with a slash.
fn read_path<'i>(has_authority: bool, input: &mut &'i str) -> ModalResult<&'i str> {
    let in_path = Pred(|c: char| c.is_ascii_graphic() && !"?#[]\"<>\\^`{|}".contains(c));
    take_while(0.., in_path)
        .verify(|path: &&str| !has_authority || path.is_empty() || path.starts_with('/'))
        .parse_next(input)
}

/// Parses a query or a fragment (3.4, 3.5) after its mark.
fn read_after<'i>(mark: char, input: &mut &'i str) -> ModalResult<&'i str> {
    let in_it = Pred(|c: char| c.is_ascii_graphic() && !"#[]\"<>\\^`{|}".contains(c));
    preceded(mark, take_while(0.., in_it)).parse_next(input)
}

/// Parses a URI.
fn read_uri<'i>(input: &mut &'i str) -> ModalResult<Uri<'i>> {
    let scheme = terminated(Func(read_scheme), ':').parse_next(input)?;
    let authority = opt(preceded("//", Func(read_authority))).parse_next(input)?;
    let path = read_path(authority.is_some(), input)?;
    let query = opt(FuncWith('?', read_after)).parse_next(input)?;
    let fragment = opt(FuncWith('#', read_after)).parse_next(input)?;
    Ok(Uri {
        scheme,
        authority,
        path,
        query,
        fragment,
    })
}

/// Parses a whole text as a URI.
fn parse_uri<'i>(text: &'i str) -> Result<Uri<'i>, ParseFault<&'i str, EmptyError>> {
    Parser::<_, _, ErrMode<_>>::parse(&mut Func(read_uri), text)
}

// The examples of 1.1.2, and that of 3.
#[test]
fn examples(rt: HostRuntime) {
    let host = |host| Some((None, host, None));
    let rows = [
        (
            "ftp://ftp.is.co.za/rfc/rfc1808.txt",
            "ftp",
            host("ftp.is.co.za"),
            "/rfc/rfc1808.txt",
            None,
            None,
        ),
        (
            "http://www.ietf.org/rfc/rfc2396.txt",
            "http",
            host("www.ietf.org"),
            "/rfc/rfc2396.txt",
            None,
            None,
        ),
        (
            "ldap://[2001:db8::7]/c=GB?objectClass?one",
            "ldap",
            host("[2001:db8::7]"),
            "/c=GB",
            Some("objectClass?one"),
            None,
        ),
        (
            "mailto:John.Doe@example.com",
            "mailto",
            None,
            "John.Doe@example.com",
            None,
            None,
        ),
        (
            "news:comp.infosystems.www.servers.unix",
            "news",
            None,
            "comp.infosystems.www.servers.unix",
            None,
            None,
        ),
        (
            "tel:+1-816-555-1212",
            "tel",
            None,
            "+1-816-555-1212",
            None,
            None,
        ),
        (
            "telnet://192.0.2.16:80/",
            "telnet",
            Some((None, "192.0.2.16", Some("80"))),
            "/",
            None,
            None,
        ),
        (
            "urn:oasis:names:specification:docbook:dtd:xml:4.1.2",
            "urn",
            None,
            "oasis:names:specification:docbook:dtd:xml:4.1.2",
            None,
            None,
        ),
        (
            "foo://example.com:8042/over/there?name=ferret#nose",
            "foo",
            Some((None, "example.com", Some("8042"))),
            "/over/there",
            Some("name=ferret"),
            Some("nose"),
        ),
        (
            "http://a:b@[::1]:/?#",
            "http",
            Some((Some("a:b"), "[::1]", Some(""))),
            "/",
            Some(""),
            Some(""),
        ),
        (
            "file:///etc/hosts",
            "file",
            host(""),
            "/etc/hosts",
            None,
            None,
        ),
    ];
    for (text, scheme, authority, path, query, fragment) in rows {
        let authority = authority.map(|(user, host, port)| Authority { user, host, port });
        let wanted = Uri {
            scheme,
            authority,
            path,
            query,
            fragment,
        };
        assert_eq!(rt; parse_uri(text).ok(), Some(wanted));
    }
}

#[test]
fn invalid(rt: HostRuntime) {
    for (text, offset) in [
        ("", 0),
        ("1a:b", 0),
        ("a", 1),
        ("//host/", 0),
        ("a_b:c", 1),
        ("http://h:6 /", 10),
        ("http://h:x/", 9),
        ("http://[::1/", 7),
        ("http://h/a b", 10),
        ("http://h/#a#b", 11),
    ] {
        match parse_uri(text) {
            Err(ParseFault::Invalid(error)) => assert_eq!(rt; error.offset(), offset),
            _ => assert!(rt; false),
        }
    }
}
