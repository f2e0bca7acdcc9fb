//! Errors as they are printed. The texts are written by hand, in the layout of winnow's own.
use std::alloc::Global;
use std::fmt::Display;
use std::process::Abort;
use winnow::ascii::impls::{Alpha1, DecUint, Digit1};
use winnow::combinator::{alt, cut_err, repeat, separated_pair, terminated};
use winnow::error::{ContextError, EmptyError, ErrMode, ExpectedError, InputError, ParseFault};
use winnow::prelude::*;
use winnow::stream::{Excerpt, LocatingSlice, Partial, Position, position_in};

type Said = ContextError<&'static str>;

/// Checks the printed form of a value.
fn same(rt: &impl Abort, alloc: Global, shown: impl Display + Drop, wanted: &str) {
    match format!(in alloc; "{shown}") {
        Ok(text) => assert_eq!(rt; text.as_str(), wanted),
        Err(_) => assert!(rt; false, "no memory"),
    }
}

/// Settings, one a line.
fn settings<'i>(
    alloc: Global,
    text: &'i str,
) -> Result<Vec<(&'i str, u32)>, ParseFault<&'i str, Said>> {
    let number = cut_err(DecUint.context(alloc, "a number"));
    let setting = terminated(separated_pair(Alpha1, '=', number), cut_err('\n'));
    let mut lines = repeat(alloc, 0.., setting.context(alloc, "a setting"));
    Parser::<_, _, ErrMode<_>>::parse(&mut lines, text)
}

/// Checks the error of a text that is not a list of settings.
fn refused(rt: &impl Abort, alloc: Global, text: &'static str, wanted: &str) {
    match settings(alloc, text) {
        Ok(_) => assert!(rt; false, "{text} is read"),
        Err(fault) => same(rt, alloc, fault, wanted),
    }
}

#[test]
fn a_line_with_a_caret(rt: HostRuntime) {
    refused(
        &rt,
        rt.alloc(),
        "width=12\nheight=tall\n",
        "parse error at line 2, column 8\n  |\n2 | height=tall\n  |        ^\n\
         expected a number in a setting",
    );
    refused(
        &rt,
        rt.alloc(),
        "a=1\r\nb=2\r\n",
        "parse error at line 1, column 4\n  |\n1 | a=1\n  |    ^\nexpected a setting",
    );
}

#[test]
fn a_line_of_its_own(rt: HostRuntime) {
    refused(
        &rt,
        rt.alloc(),
        "größe=1",
        "parse error at line 1, column 1\n  |\n1 | größe=1\n  | ^\nfailed to parse",
    );
    refused(
        &rt,
        rt.alloc(),
        "size=1;",
        "parse error at line 1, column 7\n  |\n1 | size=1;\n  |       ^\nexpected a setting",
    );
    refused(
        &rt,
        rt.alloc(),
        "size=",
        "parse error at line 1, column 6\n  |\n1 | size=\n  |      ^\n\
         expected a number in a setting",
    );
}

/// A path before a message does not move the caret.
#[test]
fn behind_a_path(rt: HostRuntime) {
    let alloc = rt.alloc();
    match settings(alloc, "size=x") {
        Ok(_) => assert!(rt; false),
        Err(fault) => match format!(in alloc; "a/b.ini: {fault}") {
            Ok(text) => same(
                &rt,
                alloc,
                text.as_str(),
                "a/b.ini: parse error at line 1, column 6\n  |\n1 | size=x\n  |      ^\n\
                 expected a number in a setting",
            ),
            Err(_) => assert!(rt; false, "no memory"),
        },
    }
}

/// The caret is under a character, of one byte or several; invalid bytes count as one.
#[test]
fn excerpts(rt: HostRuntime) {
    let text = "höhe=1\ngröße=x\n";
    let shown = Excerpt::new(text.as_bytes(), 16);
    assert_eq!(rt; shown.position(), Position { line: 2, column: 7 });
    assert_eq!(rt; shown.line(), "größe=x".as_bytes());
    same(
        &rt,
        rt.alloc(),
        shown,
        "parse error at line 2, column 7\n  |\n2 | größe=x\n  |       ^",
    );
    same(
        &rt,
        rt.alloc(),
        Excerpt::new(b"a\xFFb", 2),
        "parse error at line 1, column 3\n  |\n1 | a\u{FFFD}b\n  |   ^",
    );
    same(
        &rt,
        rt.alloc(),
        Excerpt::new(b"", 0),
        "parse error at line 1, column 1\n  |\n1 | \n  | ^",
    );
    same(
        &rt,
        rt.alloc(),
        Excerpt::new(b"ab", 9),
        "parse error at line 1, column 3\n  |\n1 | ab\n  |   ^",
    );
    same(
        &rt,
        rt.alloc(),
        Excerpt::new(b"1\n2\n3\n4\n5\n6\n7\n8\n9\nten", 19),
        "parse error at line 10, column 2\n   |\n10 | ten\n   |  ^",
    );
    same(
        &rt,
        rt.alloc(),
        Excerpt::new(b"a\n", 2),
        "parse error at line 2, column 1\n  |\n2 | \n  | ^",
    );
    assert_eq!(rt; position_in(b"\xFF\n\xFFa", 3), Position { line: 2, column: 2 });
}

/// Bytes, a place, and the line that is shown of it: without the carriage return of `"\r\n"`, and
/// with every other one. Rust's `str::lines` has the same lines.
const LINES: &[(&[u8], usize, &[u8])] = &[
    (b"", 0, b""),
    (b"\n", 0, b""),
    (b"\n", 1, b""),
    (b"ab\ncd", 0, b"ab"),
    (b"ab\ncd", 2, b"ab"),
    (b"ab\ncd", 3, b"cd"),
    (b"ab\ncd", 5, b"cd"),
    (b"ab\ncd", 9, b"cd"),
    (b"ab\r\ncd", 0, b"ab"),
    (b"ab\r\ncd", 2, b"ab"),
    (b"ab\r\ncd", 3, b"ab"),
    (b"ab\r\ncd", 4, b"cd"),
    (b"ab\r", 0, b"ab\r"),
    (b"ab\r", 2, b"ab\r"),
    (b"ab\r", 3, b"ab\r"),
    (b"\r", 1, b"\r"),
    (b"\r\n", 0, b""),
    (b"\r\n", 1, b""),
    (b"\r\n", 2, b""),
    (b"ab\rcd\n", 4, b"ab\rcd"),
    (b"ab\r\r\ncd", 1, b"ab\r"),
    (b"ab\n\rcd", 3, b"\rcd"),
    (b"ab\ncd\r", 4, b"cd\r"),
    (b"\xFF\r\n\xFF\r", 0, b"\xFF"),
    (b"\xFF\r\n\xFF\r", 4, b"\xFF\r"),
];

#[test]
fn lines_of_places(rt: HostRuntime) {
    for (text, at, line) in LINES {
        assert_eq!(rt; Excerpt::new(*text, *at).line(), *line, "{text:?} at {at}");
    }
    let text = "ab\r";
    assert_eq!(rt; Excerpt::new(text.as_bytes(), 3).position(), Position { line: 1, column: 4 });
    same(
        &rt,
        rt.alloc(),
        Excerpt::new(text.as_bytes(), 3),
        "parse error at line 1, column 4\n  |\n1 | ab\r\n  |    ^",
    );
    same(
        &rt,
        rt.alloc(),
        Excerpt::new(b"a=1\r\nb=\r", 8),
        "parse error at line 2, column 4\n  |\n2 | b=\r\n  |    ^",
    );
}

#[test]
fn other_inputs(rt: HostRuntime) {
    let wanted = "parse error at line 1, column 3\n  |\n1 | 12a\n  |   ^\nfailed to parse";
    let bytes = Parser::<&[u8], _, EmptyError>::parse(&mut Digit1, b"12a".as_slice());
    match bytes {
        Ok(_) => assert!(rt; false),
        Err(fault) => same(&rt, rt.alloc(), fault, wanted),
    }
    let located = LocatingSlice::new("12a");
    match Parser::<_, _, EmptyError>::parse(&mut Digit1, located) {
        Ok(_) => assert!(rt; false),
        Err(fault) => same(&rt, rt.alloc(), fault, wanted),
    }
    let mut part = Partial::new("12");
    match Parser::<_, &str, ErrMode<EmptyError>>::parse_next(&mut Digit1, &mut part) {
        Ok(_) => assert!(rt; false),
        Err(error) => same(&rt, rt.alloc(), error, "parsing requires 1 more data"),
    }
    same(
        &rt,
        rt.alloc(),
        InputError::at("rest"),
        "failed to parse starting at: rest",
    );
    let none: ErrMode<EmptyError> = ErrMode::no_memory(&"rest");
    same(&rt, rt.alloc(), none, "out of memory");
}

/// A switch, or a number: the error has the expected items of both branches.
fn value(alloc: Global, input: &mut &str) -> Result<(), ExpectedError<&'static str>> {
    alt((
        "on".void().context(alloc, "a switch"),
        Digit1.void().context(alloc, "a number"),
    ))
    .parse_next(input)
}

#[test]
fn what_each_branch_expected(rt: HostRuntime) {
    let alloc = rt.alloc();
    match value(alloc, &mut "?") {
        Ok(()) => assert!(rt; false),
        Err(mut error) => {
            assert_eq!(rt; error.expected(), ["a switch", "a number"].as_slice());
            assert_eq!(rt; error.within().len(), 0);
            error.push(alloc, "a value");
            error.push(alloc, "a setting");
            assert_eq!(rt; error.within(), ["a value", "a setting"].as_slice());
            let wanted = "expected a switch or a number in a value in a setting";
            same(&rt, rt.alloc(), error, wanted);
        }
    }
    let mut three = ExpectedError::new();
    for word in ["on", "off", "auto"] {
        let mut one = ExpectedError::new();
        one.push(alloc, word);
        three = three.joined(one);
    }
    same(&rt, rt.alloc(), three, "expected on, off or auto");
    let none: ExpectedError<&str> = ExpectedError::new();
    same(&rt, rt.alloc(), none, "failed to parse");
}

#[test]
fn joined_lets_go_in_what(rt: HostRuntime) {
    let alloc = rt.alloc();
    let mut number = ExpectedError::new();
    number.push(alloc, "a number");
    number.push(alloc, "a width");
    assert_eq!(rt; number.within(), ["a width"].as_slice());
    let mut word = ExpectedError::new();
    word.push(alloc, "a word");
    word.push(alloc, "a name");
    same(&rt, alloc, number.joined(word), "expected a number or a word");
}
