//! Configuration files in nginx's form: directives with arguments, and blocks of directives. Errors
//! show the line. The format is that of nginx's beginner's guide, without quotes and escapes.

use std::alloc::Global;
use winnow::FuncWith;
use winnow::ascii::impls::{Multispace1, TillLineEnding};
use winnow::combinator::impls::{Eof, Fail};
use winnow::combinator::{alt, cut_err, opt, preceded, repeat, repeat_till, terminated};
use winnow::error::{ContextError, ErrMode, ParseFault};
use winnow::prelude::*;
use winnow::stream::position_of;
use winnow::token::take_till;

type Message = ContextError<Expected>;

/// What was expected. The prover covers recursive functions only if contexts have no lifetime.
#[derive(Clone, Copy, Debug, PartialEq, Eq)]
enum Expected {
    End,
    Bracket,
    Directive,
    Semicolon,
    EndOfFile,
}

/// A directive. A simple one has no block.
#[derive(Debug, Drop)]
struct Directive<'i> {
    name: &'i str,
    arguments: Vec<&'i str>,
    block: Option<Vec<Directive<'i>>>,
}

/// Parses whitespace and comments.
fn read_gap(alloc: Global, input: &mut &str) -> ModalResult<(), Message> {
    let comment = ('#', TillLineEnding).void();
    repeat(alloc, 0.., alt((Multispace1.void(), comment))).parse_next(input)
}

/// Parses a word, and the gap after it.
fn read_word<'i>(alloc: Global, input: &mut &'i str) -> ModalResult<&'i str, Message> {
    let word = take_till(1.., (' ', '\t', '\r', '\n', ';', '{', '}', '#'));
    terminated(word, FuncWith(alloc, read_gap)).parse_next(input)
}

/// Parses a block, and the gap after it.
#[cycle(directives)]
fn read_block<'i>(
    (alloc, depth): (Global, usize),
    input: &mut &'i str,
) -> ModalResult<Vec<Directive<'i>>, Message> {
    let open = ('{', FuncWith(alloc, read_gap)).context(alloc, Expected::End);
    let close = ('}', FuncWith(alloc, read_gap)).context(alloc, Expected::Bracket);
    let directive = FuncWith((alloc, depth), read_directive);
    let (block, _) = preceded(open, repeat_till(alloc, 0.., directive, close)).parse_next(input)?;
    Ok(block)
}

/// Parses a directive whose blocks are nested at most `depth` deep, and the gap after it.
#[cycle(directives)]
fn read_directive<'i>(
    (alloc, depth): (Global, usize),
    input: &mut &'i str,
) -> ModalResult<Directive<'i>, Message> {
    let word = FuncWith(alloc, read_word);
    let name = word.context(alloc, Expected::Directive).parse_next(input)?;
    let arguments = repeat(alloc, 0.., FuncWith(alloc, read_word)).parse_next(input)?;
    let end = opt((';', FuncWith(alloc, read_gap))).parse_next(input)?;
    let block = match (end, depth.checked_sub(1)) {
        (Some(_), _) => None,
        (None, Some(below)) => {
            let block = FuncWith((alloc, below), read_block);
            Some(cut_err(block).parse_next(input)?)
        }
        (None, None) => cut_err(Fail.context(alloc, Expected::Semicolon)).parse_next(input)?,
    };
    Ok(Directive {
        name,
        arguments,
        block,
    })
}

/// Parses directives up to the end of the file.
fn read_all<'i>(alloc: Global, input: &mut &'i str) -> ModalResult<Vec<Directive<'i>>, Message> {
    read_gap(alloc, input)?;
    let directive = FuncWith((alloc, 8), read_directive);
    let end = Eof.context(alloc, Expected::EndOfFile);
    let (list, _) = repeat_till(alloc, 0.., directive, end).parse_next(input)?;
    Ok(list)
}

/// Parses a whole file.
fn read_config<'i>(
    alloc: Global,
    text: &'i str,
) -> Result<Vec<Directive<'i>>, ParseFault<&'i str, Message>> {
    Parser::<_, _, ErrMode<_>>::parse(&mut FuncWith(alloc, read_all), text)
}

/// Returns whether a directive has these words and no block.
fn is_simple(directive: &Directive<'_>, name: &str, arguments: &[&str]) -> bool {
    let is_it = directive.name == name && directive.arguments.as_slice() == arguments;
    is_it && directive.block.is_none()
}

// An example of the guide.
#[test]
fn blocks(rt: HostRuntime) {
    let text = "# one server\n\
        server {\n\
        \x20   location / {\n\
        \x20       root /data/www;\n\
        \x20   }\n\
        \x20   listen 80 default_server; # all names\n\
        }\n\
        events {}\n";
    let Ok(config) = read_config(rt.alloc(), text) else {
        return assert!(rt; false);
    };
    let [server, events] = config.as_slice() else {
        return assert!(rt; false);
    };
    assert!(rt; server.name == "server" && server.arguments.is_empty());
    match server.block.as_deref() {
        Some([location, listen]) => {
            assert!(rt;
                location.name == "location" && location.arguments.as_slice() == ["/"].as_slice()
            );
            let block = location.block.as_deref();
            assert!(rt; matches!(block, Some([it]) if is_simple(it, "root", &["/data/www"])));
            assert!(rt; is_simple(listen, "listen", &["80", "default_server"]));
        }
        _ => assert!(rt; false),
    }
    assert!(rt; matches!(events.block.as_deref(), Some([])));
}

#[test]
fn messages(rt: HostRuntime) {
    for (text, line, column, expected) in [
        ("listen 80", 1, 10, Expected::End),
        ("a;\nhttp {\n  root /;\n", 4, 1, Expected::Directive),
        ("http { root / }", 1, 15, Expected::End),
        ("http {};", 1, 8, Expected::Directive),
        (
            "a { a { a { a { a { a { a { a { a {} } } } } } } } }",
            1,
            35,
            Expected::Semicolon,
        ),
        ("{}", 1, 1, Expected::Directive),
    ] {
        match read_config(rt.alloc(), text) {
            Err(ParseFault::Invalid(error)) => {
                let at = position_of(text, error.offset());
                assert!(rt; at.is_some_and(|at| (at.line, at.column) == (line, column)));
                let contexts = error.inner().context();
                assert!(rt; contexts.first() == Some(&expected));
            }
            _ => assert!(rt; false),
        }
    }
}
