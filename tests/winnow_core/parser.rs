//! Tuples, closures, and the calls of a parser.
use std::alloc::Global;
use std::fmt::Debug;
use std::process::Abort;
use stream_errors::context::AddContext;
use stream_errors::context_error::ContextError;
use stream_errors::empty::EmptyError;
use stream_errors::fault::ParseFault;
use stream_errors::input_error::InputError;
use stream_errors::mode::ErrMode;
use stream_errors::parser_error::ParserError;
use stream_searches::caseless::Caseless;
use stream_searches::compare::Compare;
use stream_sets::sets::Pred;
use streams::stream::Stream;
use test_support::outcomes::Kind::{Backtrack, Cut};
use test_support::outcomes::{Outcome, outcome_of};
use test_support::rows::{Modal, ModalAt, answers, answers_each, same};
use test_support::texts::{OfText, whole};
use test_support::{at_bytes, at_text};
use winnow_ascii::ascii::impls::{Alpha1, Digit1};
use winnow_comb::combinator;
use winnow_comb::combinator::preceded;
use winnow_core::parser::{Func, FuncWith, ModalParser, Parser};
use winnow_repeat::combinator::repeat;
use winnow_token::token;
use winnow_token::token::impls::{Any, Rest, RestLen};

/// Tuples of none to six: the first error is returned, and the input is left where that parser left
/// it.
fn tuple<I: OfText + Compare<u8>, E: ParserError<I>>(rt: &impl Abort) {
    answers::<I, (), E, _>(rt, "()", (), "abxsbsh", Ok(()), "abxsbsh");
    answers::<I, (), E, _>(rt, "()", (), "ab", Ok(()), "ab");
    let rows = [("abc", Ok((b'a',)), "bc"), ("ab", Ok((b'a',)), "b")];
    answers_each::<I, (u8,), E, _>(rt, "a tuple of one", (b'a',), &rows);
    let three = (b'a', b'b', b'c');
    answers::<I, _, E, _>(rt, "a tuple of three", three, "abx", Err(Backtrack), "x");
    let four = (b'a', b'b', b'c', b'd');
    answers::<I, _, E, _>(rt, "a tuple of four", four, "abcd;", Ok(four), ";");
    let five = (b'a', b'b', b'c', b'd', b'e');
    answers::<I, _, E, _>(rt, "a tuple of five", five, "abcdx", Err(Backtrack), "x");
    let six = (b'a', b'b', b'c', b'd', b'e', b'f');
    let rows = [
        ("abcdefg", Ok(six), "g"),
        ("abcdef;", Ok(six), ";"),
        ("abcdea", Err(Backtrack), "a"),
        ("abb", Err(Backtrack), "b"),
    ];
    answers_each::<I, (u8, u8, u8, u8, u8, u8), E, _>(rt, "a tuple of six", six, &rows);
}

#[test]
fn tuples(rt: HostRuntime) {
    at_bytes!(rt; tuple);
    tuple::<&[u8], InputError<&'static [u8]>>(&rt);
}

/// The texts with an `x` where one of the letters a to k is expected.
const BROKEN: [&str; 11] = [
    "x", "ax", "abx", "abcx", "abcdx", "abcdex", "abcdefx", "abcdefgx", "abcdefghx", "abcdefghix",
    "abcdefghijx",
];

/// Runs a tuple of the first `count` letters on all of them, and on each text with an `x` among them.
fn letters<'i, O: Drop, P>(rt: &impl Abort, count: usize, mut parser: P)
where
    P: Parser<&'i str, O, Modal> + Drop,
{
    let mut input = "abcdefghijk;";
    assert!(rt; parser.parse_next(&mut input).is_ok(), "{}", count);
    assert_eq!(rt; input.len(), 12 - count);
    for text in &BROKEN[..count] {
        let mut input = *text;
        let read = parser.parse_next(&mut input);
        assert!(rt; matches!(read, Err(ErrMode::Backtrack(_))), "{} {}", count, text);
        assert_eq!(rt; input, "x");
    }
}

/// Tuples of seven to eleven: all members run in order, and the outputs have it.
#[test]
fn long_tuples(rt: HostRuntime) {
    letters(&rt, 7, ('a', 'b', 'c', 'd', 'e', 'f', 'g'));
    letters(&rt, 8, ('a', 'b', 'c', 'd', 'e', 'f', 'g', 'h'));
    letters(&rt, 9, ('a', 'b', 'c', 'd', 'e', 'f', 'g', 'h', 'i'));
    letters(&rt, 10, ('a', 'b', 'c', 'd', 'e', 'f', 'g', 'h', 'i', 'j'));
    let eleven = ('a', 'b', 'c', 'd', 'e', 'f', 'g', 'h', 'i', 'j', 'k');
    letters(&rt, 11, eleven);
    let mut any = (Any, Any, Any, Any, Any, Any, Any, Any, Any, Any, Any);
    let read: Result<_, Modal> = any.parse_next(&mut "0123456789a");
    let Ok((a, b, c, d, e, f, g, h, i, j, k)) = read else {
        panic!(rt; "no outputs");
    };
    let outputs = [a, b, c, d, e, f, g, h, i, j, k];
    for (output, want) in outputs.iter().zip("0123456789a".chars()) {
        assert_eq!(rt; *output, want);
    }
}

/// A closure as a parser.
#[test]
fn func(rt: HostRuntime) {
    let mut first = Func(|input: &mut &[u8]| {
        let answer: Result<u8, EmptyError> = b'a'.parse_next(input);
        answer
    });
    let got = outcome_of::<&[u8], u8, EmptyError, _>(&mut first, b"ab");
    same(&rt, "Func", "ab", got, (Ok(b'a'), b"b".as_slice()));
}

/// A name and its numbers, slices of the input.
#[derive(Debug, PartialEq, Drop)]
struct User<'i> {
    name: &'i str,
    numbers: Vec<&'i str>,
}

/// Parses a user up to a semicolon.
fn user<'i>(alloc: Global, input: &mut &'i str) -> Result<User<'i>, Modal> {
    let name = Alpha1.parse_next(input)?;
    let numbers = repeat(alloc, 0.., preceded(',', Digit1)).parse_next(input)?;
    let _end = ';'.parse_next(input)?;
    Ok(User { name, numbers })
}

/// A function with an allocator as a parser in a repetition: its output borrows from the input, and
/// if it fails the repetition resets the input.
#[test]
fn func_with(rt: HostRuntime) {
    let alloc = rt.alloc();
    let mut input = "ann,1,22;bob;eve,3";
    let mut parser = repeat(alloc, 0.., FuncWith(alloc, user));
    let users: Result<Vec<User<'_>>, Modal> = parser.parse_next(&mut input);
    let Ok(users) = users else {
        panic!(rt; "no users");
    };
    assert_eq!(rt; users.len(), 2);
    assert_eq!(rt; users[0].name, "ann");
    assert_eq!(rt; users[0].numbers.as_slice(), ["1", "22"].as_slice());
    assert_eq!(rt; users[1].name, "bob");
    assert!(rt; users[1].numbers.is_empty());
    assert_eq!(rt; input, "eve,3");
    let mut one = FuncWith(alloc, user);
    assert!(rt; one.parse_next(&mut input).is_err());
    assert_eq!(rt; input, "");
}

/// Whole parses of digits: the slice, or the offset of the error or of the rest.
#[test]
fn parse(rt: HostRuntime) {
    let mut digits = token::take_while::<_, &[u8], EmptyError, _>(
        1..,
        Pred(|token: u8| token.is_ascii_digit()),
    );
    for (text, want) in [("12", Ok("12")), ("12a", Err(2)), ("a", Err(0))] {
        let got = digits.parse(text.as_bytes());
        match want {
            Ok(slice) => assert_eq!(rt; got, Ok(slice.as_bytes()), "parse at {text:?}"),
            Err(place) => match got {
                Err(ParseFault::Invalid(error)) => {
                    assert_eq!(rt; *error.input(), text.as_bytes(), "parse at {text:?}");
                    assert_eq!(rt; error.offset(), place, "parse at {text:?}");
                }
                other => assert!(rt; false, "parse at {text:?}: {other:?}"),
            },
        }
    }
}

/// A prefix of the text that matches a grammar (`read`), and all of a text (`read_all`).
#[test]
fn read(rt: HostRuntime) {
    for (text, want, rest) in [("ab", Some('a'), "b"), ("a", Some('a'), ""), ("b", None, "b")] {
        let mut input = text;
        let answer: Result<char, EmptyError> = 'a'.read(&mut input);
        same(&rt, "read", text, (answer.ok(), input), (want, rest));
    }
    for (text, want) in [("a", Some('a')), ("ab", None), ("", None)] {
        let all = Parser::<_, char, EmptyError>::read_all(&mut 'a', text);
        same(&rt, "read_all", text, all.ok(), want);
    }
}

/// The rest and the output of one run, or its error.
fn peeked<I: OfText + Compare<char> + Compare<Caseless<&'static str>>, E: ParserError<I>>(
    rt: &impl Abort,
)
where
    I::Slice: PartialEq + Debug,
{
    let name = "parse_peek";
    let mut pi = token::literal::<_, I, E>('π');
    let got = pi.parse_peek(whole("π3.14")).ok();
    same(
        rt,
        name,
        "π3.14",
        got,
        Some((whole("3.14"), I::slice_of_text("π"))),
    );
    let mut minus = token::literal::<_, I, E>('-');
    let got = minus.parse_peek(whole("π")).is_err();
    same(rt, name, "π", got, true);
    let got: Result<(I, I::Slice), E> = Caseless("hello").parse_peek(whole("HeLLo!"));
    same(
        rt,
        name,
        "HeLLo!",
        got.ok(),
        Some((whole("!"), I::slice_of_text("HeLLo"))),
    );
    let got: Result<(I, (I::Slice, usize)), E> = (Rest, RestLen).parse_peek(I::of_text("ab"));
    let want = Some((I::of_text(""), (I::slice_of_text("ab"), 0)));
    same(rt, name, "ab", got.ok(), want);
    let got: Result<(I, usize), E> = RestLen.parse_peek(I::of_text("éa"));
    same(rt, name, "éa", got.ok(), Some((I::of_text("éa"), 3)));
}

#[test]
fn parse_peek(rt: HostRuntime) {
    at_text!(rt; peeked);
}

/// The state of a parser is kept behind a reference.
fn referred<I: OfText + Stream<Token = char>, E: ParserError<I>>(rt: &impl Abort) {
    let mut calls = 0u8;
    let mut counted = Any.map(move |_: char| {
        calls += 1;
        calls
    });
    let mut input = whole::<I>("abc");
    let first: Result<u8, E> = counted.by_ref().parse_next(&mut input);
    same(rt, "by_ref", "abc", first.ok(), Some(1));
    let both: Result<(u8, char), E> = (counted.by_ref(), Any).parse_next(&mut input);
    same(rt, "by_ref", "bc", both.ok(), Some((2, 'c')));
    let third: Result<u8, E> = counted.parse_next(&mut input);
    same(rt, "by_ref", "", third.is_err(), true);
}

#[test]
fn by_ref(rt: HostRuntime) {
    at_text!(rt; referred);
}

/// Whole parses under errors with a mode: the inner error is without it.
#[test]
fn parse_under_errors_with_a_mode(rt: HostRuntime) {
    let name = "digit1.parse";
    let got = Parser::<&str, &str, ModalAt<&str>>::parse(&mut Digit1, "12");
    same(&rt, name, "12", got.ok(), Some("12"));
    for (text, place) in [("12a", 2), ("a", 0)] {
        match Parser::<&str, &str, ModalAt<&str>>::parse(&mut Digit1, text) {
            Err(ParseFault::Invalid(error)) => {
                same(&rt, name, text, error.offset(), place);
                same(&rt, name, text, *error.input(), text);
                same(&rt, name, text, error.into_inner().input, &text[place..]);
            }
            _ => assert!(rt; false, "digit1.parse at {text:?} is not refused"),
        }
    }
}

/// Checks the offset and the contexts of the error of a whole parse.
fn invalid<O, E, P>(
    rt: &impl Abort,
    parser: &mut P,
    text: &'static str,
    offset: usize,
    contexts: &[char],
)
where
    O: Drop,
    E: ParserError<&'static str, Inner = ContextError<char>>,
    P: Parser<&'static str, O, E>,
{
    match parser.parse(text) {
        Err(ParseFault::Invalid(error)) => {
            same(rt, "parse", text, error.offset(), offset);
            same(rt, "parse", text, error.inner().context(), contexts);
        }
        _ => assert!(rt; false, "parse at {text:?} is not invalid"),
    }
}

/// The contexts of the error of a whole parse. Only the error for remaining input has none.
fn with_contexts<E>(rt: &impl Abort, alloc: Global)
where
    E: ParserError<&'static str, Inner = ContextError<char>>
        + AddContext<&'static str, char, Global>,
{
    let second = Digit1.context(alloc, 'm');
    let mut pair = (Digit1.context(alloc, 'n'), ',', second).context(alloc, 'p');
    let rows: [(&str, usize, &[char]); 5] = [
        ("a", 0, &['n', 'p']),
        ("12;3", 2, &['p']),
        ("12,a", 3, &['m', 'p']),
        ("12,", 3, &['m', 'p']),
        ("12,3;", 4, &[]),
    ];
    for (text, offset, contexts) in rows {
        invalid::<_, E, _>(rt, &mut pair, text, offset, contexts);
    }
}

#[test]
fn parse_keeps_contexts(rt: HostRuntime) {
    with_contexts::<ContextError<char>>(&rt, rt.alloc());
    with_contexts::<ErrMode<ContextError<char>>>(&rt, rt.alloc());
    let mut cut = (Digit1, combinator::cut_err(','.context(rt.alloc(), 'n')));
    invalid::<_, ErrMode<ContextError<char>>, _>(&rt, &mut cut, "12a", 2, &['n']);
}

/// Runs any parser under errors with a mode.
fn run_modal<O, P: ModalParser<&'static str, O, EmptyError> + Drop>(
    mut parser: P,
    text: &'static str,
) -> Outcome<O, &'static str> {
    outcome_of::<&str, O, Modal, P>(&mut parser, text)
}

#[test]
fn modal_parser(rt: HostRuntime) {
    let name = "ModalParser";
    same(&rt, name, "ab", run_modal('a', "ab"), (Ok('a'), "b"));
    same(&rt, name, "b", run_modal('a', "b"), (Err(Backtrack), "b"));
    same(&rt, name, "12;", run_modal(Digit1, "12;"), (Ok("12"), ";"));
    let cuts = combinator::cut_err('a');
    same(&rt, name, "b, cut", run_modal(cuts, "b"), (Err(Cut), "b"));
}
