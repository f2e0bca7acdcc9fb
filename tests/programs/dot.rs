//! Directed graphs in the DOT language, by a lexer and a parser of its tokens: a part of the
//! grammar in Graphviz's documentation, without attributes, subgraphs and quoted names.

use std::alloc::Global;
use winnow::ascii::impls::Multispace0;
use winnow::combinator::{alt, delimited, opt, preceded, repeat, separated, terminated};
use winnow::error::{EmptyError, ErrMode, ParseFault};
use winnow::prelude::*;
use winnow::stream::TokenSlice;
use winnow::token::impls::Any;
use winnow::token::{literal, one_of, take_while};
use winnow::{Func, FuncWith};

/// A token of the language.
#[derive(Clone, Copy, Debug, PartialEq, Eq)]
enum Token<'i> {
    Digraph,
    Open,
    Close,
    Arrow,
    Semicolon,
    Name(&'i str),
}

type Tokens<'t, 'i> = TokenSlice<'t, Token<'i>>;

/// Parses a name, or a keyword in any case.
fn read_name<'i>(input: &mut &'i str) -> ModalResult<Token<'i>> {
    let first = one_of(('a'..='z', 'A'..='Z', '_'));
    let others = take_while(0.., ('a'..='z', 'A'..='Z', '0'..='9', '_'));
    let name = (first, others).take().parse_next(input)?;
    let is_keyword = name.eq_ignore_ascii_case("digraph");
    Ok(if is_keyword {
        Token::Digraph
    } else {
        Token::Name(name)
    })
}

/// Parses a token.
fn read_token<'i>(input: &mut &'i str) -> ModalResult<Token<'i>> {
    alt((
        '{'.value(Token::Open),
        '}'.value(Token::Close),
        "->".value(Token::Arrow),
        ';'.value(Token::Semicolon),
        Func(read_name),
    ))
    .parse_next(input)
}

/// Parses a whole text into tokens.
fn lex<'i>(
    alloc: Global,
    text: &'i str,
) -> Result<Vec<Token<'i>>, ParseFault<&'i str, EmptyError>> {
    let tokens = repeat(alloc, 0.., terminated(Func(read_token), Multispace0));
    Parser::<_, _, ErrMode<_>>::parse(&mut preceded(Multispace0, tokens), text)
}

/// Parses a node.
fn read_node<'i>(input: &mut Tokens<'_, 'i>) -> ModalResult<&'i str> {
    Any.verify_map(|token: &Token<'_>| match token {
        Token::Name(name) => Some(*name),
        _ => None,
    })
    .parse_next(input)
}

/// Parses a statement: nodes with arrows between them.
fn read_statement<'i>(alloc: Global, input: &mut Tokens<'_, 'i>) -> ModalResult<Vec<&'i str>> {
    let nodes = separated(alloc, 1.., Func(read_node), literal(Token::Arrow));
    terminated(nodes, opt(literal(Token::Semicolon))).parse_next(input)
}

/// Parses a graph, and returns its statements.
fn read_graph<'i>(alloc: Global, input: &mut Tokens<'_, 'i>) -> ModalResult<Vec<Vec<&'i str>>> {
    let head = (
        literal(Token::Digraph),
        opt(Func(read_node)),
        literal(Token::Open),
    );
    let statements = repeat(alloc, 0.., FuncWith(alloc, read_statement));
    delimited(head, statements, literal(Token::Close)).parse_next(input)
}

/// Parses a whole text as a graph, and calls `each` with the two nodes of every arrow.
fn edges(alloc: Global, text: &str, mut each: impl FnMut(&str, &str)) -> bool {
    let Ok(tokens) = lex(alloc, text) else {
        return false;
    };
    let mut graph = FuncWith(alloc, read_graph);
    let tokens = TokenSlice::new(tokens.as_slice());
    let Ok(statements) = Parser::<_, _, ErrMode<_>>::parse(&mut graph, tokens) else {
        return false;
    };
    for nodes in &statements {
        for (at, node) in nodes.iter().enumerate().skip(1) {
            each(nodes[at - 1], *node);
        }
    }
    true
}

#[test]
fn graphs(rt: HostRuntime) {
    for (text, wanted) in [
        ("digraph {}", [("", ""); 3]),
        ("digraph G { a -> b }", [("a", "b"), ("", ""), ("", "")]),
        (
            "DiGraph{a->b->c;d;_1 -> a}",
            [("a", "b"), ("b", "c"), ("_1", "a")],
        ),
        (
            "\n digraph g\n{ a -> b\n b -> a }\n",
            [("a", "b"), ("b", "a"), ("", "")],
        ),
    ] {
        let mut count = 0;
        let is_valid = edges(rt.alloc(), text, |from, to| {
            assert!(rt; wanted.get(count) == Some(&(from, to)));
            count += 1;
        });
        assert!(rt; is_valid);
        assert!(rt; wanted.get(count).is_none_or(|it| *it == ("", "")));
    }
}

#[test]
fn invalid(rt: HostRuntime) {
    for text in [
        "",
        "{}",
        "digraph",
        "digraph {",
        "digraph { a -> }",
        "digraph { -> a }",
        "digraph { a -- b }",
        "digraph { a -> digraph }",
        "digraph g h {}",
        "digraph {} {}",
        "digraph { ; }",
        "digraph { 1a }",
    ] {
        assert!(rt; !edges(rt.alloc(), text, |_from, _to| ()));
    }
}
