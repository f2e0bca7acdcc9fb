//! Errors.
use std::alloc::Global;
use test_support::refusing::Refusing;
use winnow::ascii::impls::{Alpha1, DecUint, Digit1};
use winnow::combinator::{alt, cut_err, opt, repeat};
use winnow::error::{
    ContextError, EmptyError, ErrMode, ErrorConvert, ExpectedError, InputError, OrNoMemory,
    ParseFault,
};
use winnow::prelude::*;
use winnow::stream::position_of;
use winnow::token::impls::Any;

type Fails = ErrMode<EmptyError>;
type Message = ContextError<&'static str>;

/// A function with winnow's alias for its result.
fn key<'i>(input: &mut &'i str) -> ModalResult<&'i str> {
    Alpha1.parse_next(input)
}

#[test]
fn results_have_a_mode(rt: HostRuntime) {
    let read: Result<&str, Fails> = key(&mut "ab=");
    assert_eq!(rt; read, Ok("ab"));
    let message: ModalResult<&str, Message> = Digit1.parse_next(&mut "ab");
    assert!(rt; matches!(message, Err(ErrMode::Backtrack(error)) if error.context().is_empty()));
}

#[test]
fn out_of_memory_is_a_kind(rt: HostRuntime) {
    let heap = Refusing::always_from(rt.alloc(), 0);
    let mut input = "ab";
    let list = repeat(&heap, 1.., Any);
    let read: Result<Option<Vec<char, &Refusing<Global>>>, Fails> = opt(list).parse_next(&mut input);
    match read {
        Err(error) => assert!(rt; ParserError::<&str>::is_memory(&error)),
        Ok(_) => assert!(rt; false, "`opt` backtracks"),
    }
}

#[test]
fn out_of_memory_is_marked(rt: HostRuntime) {
    let error: Fails = ParserError::<&str>::no_memory(&"");
    assert!(rt; matches!(&error, ErrMode::Backtrack(_) | ErrMode::Cut(_)));
    assert!(rt; !ParserError::<&str>::is_backtrack(&error));
    assert!(rt; ParserError::<&str>::is_memory(&error));
}

#[test]
fn parse_may_be_out_of_memory(rt: HostRuntime) {
    let heap = Refusing::always_from(rt.alloc(), 0);
    let mut list = repeat(&heap, 1.., Any);
    let read: Result<Vec<char, &Refusing<Global>>, ParseFault<&str, EmptyError>> =
        Parser::<_, _, Fails>::parse(&mut list, "ab");
    match read {
        Err(ParseFault::Invalid(error)) => assert!(rt; ParserError::<&str>::is_memory(error.inner())),
        _ => assert!(rt; false, "another result"),
    }
}

fn pushed<'h>(
    heap: &'h Refusing<Global>,
    input: &mut &str,
) -> Result<Vec<u32, &'h Refusing<Global>>, Fails> {
    let mut list = Vec::new(heap);
    list.push(DecUint.parse_next(input)?).or_no_memory(input)?;
    Ok(list)
}

#[test]
fn growth_may_fail(rt: HostRuntime) {
    let heap = Refusing::always_from(rt.alloc(), 0);
    match pushed(&heap, &mut "12") {
        Err(error) => assert!(rt; ParserError::<&str>::is_memory(&error)),
        Ok(_) => assert!(rt; false, "the list grows"),
    }
}

#[test]
fn joins_may_be_refused(rt: HostRuntime) {
    // A list has room for four contexts at first.
    let heap = Refusing::always_from(rt.alloc(), 5);
    let mut input = "!";
    let read: Result<char, ExpectedError<&str, &Refusing<Global>>> = alt((
        'a'.context(&heap, "a"),
        'b'.context(&heap, "b"),
        'c'.context(&heap, "c"),
        'd'.context(&heap, "d"),
        'e'.context(&heap, "e"),
    ))
    .parse_next(&mut input);
    match read {
        Err(error) => {
            assert!(rt; ParserError::<&str>::is_backtrack(&error));
            assert_eq!(rt; error.expected().len(), 0);
        }
        _ => assert!(rt; false, "another result"),
    }
}

#[test]
fn contexts_are_printed(rt: HostRuntime) {
    let alloc = rt.alloc();
    let mut setting = ("x=", cut_err(DecUint.context(alloc, "a number")))
        .map(|(_, number): (&str, u32)| number)
        .context(alloc, "a setting");
    match Parser::<_, _, ErrMode<Message>>::parse(&mut setting, "x=y") {
        Err(fault) => match format!(in alloc; "{fault}") {
            Ok(text) => assert_eq!(rt;
                text.as_str(),
                "parse error at line 1, column 3\n  |\n1 | x=y\n  |   ^\n\
                 expected a number in a setting"
            ),
            Err(_) => assert!(rt; false, "no memory"),
        },
        Ok(_) => assert!(rt; false, "it is parsed"),
    }
}

#[test]
fn errors_have_offsets(rt: HostRuntime) {
    let text = "é\nab";
    match Parser::<_, _, Fails>::parse(&mut ("é\n", 'a', 'c'), text) {
        Err(ParseFault::Invalid(error)) => match position_of(text, error.offset()) {
            Some(at) => assert_eq!(rt; (at.line, at.column), (2, 2)),
            None => assert!(rt; false, "no position"),
        },
        _ => assert!(rt; false, "another result"),
    }
}

#[test]
fn input_errors_are_made(rt: HostRuntime) {
    assert_eq!(rt; InputError::at("ab").input, "ab");
}

#[test]
fn assertions_are_errors(rt: HostRuntime) {
    let mut input = "ab";
    let read: Result<(), Fails> = repeat(rt.alloc(), 0.., "").parse_next(&mut input);
    assert!(rt; matches!(read, Err(ErrMode::Cut(_))));
}

#[test]
fn errors_are_converted(rt: HostRuntime) {
    let mut input = "ab";
    let mut read = Digit1.map_err(|error: Fails| error.cut());
    let got: Result<&str, Fails> = read.parse_next(&mut input);
    assert!(rt; matches!(got, Err(ErrMode::Cut(_))));
}

#[test]
fn plain_errors_are_empty(rt: HostRuntime) {
    let read: Result<&str, EmptyError> = Alpha1.parse_next(&mut "1");
    assert!(rt; read.is_err());
    let said: Result<&str, &'static str> = read.map_err(|_| "a word");
    assert_eq!(rt; said, Err("a word"));
}

#[test]
fn contexts_are_a_slice(rt: HostRuntime) {
    let alloc = rt.alloc();
    let mut word = Alpha1.context(alloc, "a word").context(alloc, "a line");
    let read: Result<&str, Message> = word.parse_next(&mut "1");
    match read {
        Err(error) => assert_eq!(rt; error.context(), ["a word", "a line"].as_slice()),
        Ok(_) => assert!(rt; false, "it is parsed"),
    }
}

#[test]
fn inputs_are_converted(rt: HostRuntime) {
    let error: InputError<&str> = ErrorConvert::convert(InputError::at("ab"));
    assert_eq!(rt; error.input, "ab");
}
