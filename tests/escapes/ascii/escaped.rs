//! Text with escapes, and its unescaped value.
use super::{Bytes, Plain, REFUSALS, lacks_behind};
use std::alloc::{Allocator, Global};
use std::process::Abort;
use stream_errors::control::ControlError;
use stream_errors::parser_error::ParserError;
use stream_searches::compare::Compare;
use stream_sets::accumulate::Accumulate;
use streams::locating::LocatingSlice;
use streams::partial::Partial;
use streams::stream::{Stream, StreamIsPartial};
use test_support::failing::{Failing, HARD};
use test_support::outcomes::Ending::{Fails, Takes};
use test_support::outcomes::Kind::{self, Backtrack, Cut, Memory};
use test_support::outcomes::{CUTS, LACKS, backtracks_behind, lacks, lacks_one_behind};
use test_support::refusing::Refusing;
use test_support::rows::{Modal, ends, ends_each, like_ends, outcome_at, same, sweep};
use test_support::texts::OfText;
use winnow_ascii::ascii::impls::{Alpha1, Digit1};
use winnow_comb::combinator::alt;
use winnow_comb::combinator::impls::{Empty, Fail};
use winnow_core::parser::Parser;
use winnow_escapes::ascii;
use winnow_escapes::ascii::impls::Escaped;
use winnow_token::token::impls::{Any, OneOf};
use winnow_token::token::one_of;

/// The parser, at a stream, an accumulator and an error.
fn make<N, K, X, I, O, D, P, C, E, A>(
    alloc: A,
    normal: N,
    control: K,
    escape: X,
) -> Escaped<N, K, X, I, O, D, P, C, E, A>
where
    N: Parser<I, O, E>,
    K: Parser<I, D, ControlError>,
    X: Parser<I, P, E>,
    I: StreamIsPartial,
    C: Accumulate<O, A> + Accumulate<P, A>,
    E: ParserError<I>,
    A: Allocator + Copy,
{
    ascii::escaped(alloc, normal, control, escape)
}

/// Parses letters with the escapes `\n` and `\\` into a text, and returns it with the number of
/// remaining units.
fn unescaped<A: Allocator + Copy>(
    alloc: A,
    text: &'static str,
) -> (Result<String<A>, Kind>, usize) {
    let named = alt(("n".value("\n"), "\\".value("\\")));
    let mut parser = make::<_, _, _, &str, &str, char, &str, String<A>, Modal, A>(
        alloc,
        Alpha1,
        '\\',
        named,
    );
    let (answer, rest) = outcome_at::<&str, String<A>, Modal, _>(&mut parser, text);
    (answer, rest.len())
}

#[test]
fn escaped(rt: HostRuntime) {
    for (text, want, left) in [
        ("ab\\ncd;", Ok("ab\ncd"), 1),
        ("ab\\x", Err(Backtrack), 1),
        ("\\\\\\n", Ok("\\\n"), 0),
        ("ab", Ok("ab"), 0),
        ("ab\\", Err(Backtrack), 0),
        (";", Ok(""), 1),
        ("", Ok(""), 0),
    ] {
        let (answer, rest) = unescaped(rt.alloc(), text);
        match answer {
            Ok(all) => same(&rt, "escaped", text, Ok(all.as_str()), want),
            Err(kind) => same(&rt, "escaped", text, Err(kind), want),
        }
        same(&rt, "escaped", text, rest, left);
    }
}

#[test]
fn escaped_without_memory(rt: HostRuntime) {
    let text = "aaaaaaaa\\nbbbbbbbbbbbbbbbbbbbbbbbb\\\\c\\ndddddddddddddddddddddddddddddddd;";
    let want = "aaaaaaaa\nbbbbbbbbbbbbbbbbbbbbbbbb\\c\ndddddddddddddddddddddddddddddddd";
    // If its first allocation fails, the text allocates when it grows.
    let heap = Refusing::once(rt.alloc(), 0);
    let (answer, left) = unescaped(&heap, text);
    assert!(rt; matches!(answer, Ok(all) if all.as_str() == want));
    assert_eq!(rt; left, 1);
    // If it cannot grow, it is out of memory.
    for first in 0..2 {
        let heap = Refusing::always_from(rt.alloc(), first);
        let (answer, _left) = unescaped(&heap, text);
        assert!(rt; matches!(answer, Err(Memory)));
    }
}

/// Characters and texts go into one text; turns are counted; a list keeps what they give, in order.
#[test]
fn escaped_into_accumulators(rt: HostRuntime) {
    let mut parser = make::<_, _, _, &str, char, char, &str, String, Modal, Global>(
        rt.alloc(),
        one_of('a'..='z'),
        '\\',
        "n".value("--"),
    );
    let (answer, rest) = outcome_at::<&str, String, Modal, _>(&mut parser, "ab\\nc\\n;");
    same(&rt, "escaped", "into a text", rest, ";");
    assert!(rt; matches!(answer, Ok(all) if all.as_str() == "ab--c--"));
    let mut parser = make::<_, _, _, &str, &str, char, char, usize, Modal, Global>(
        rt.alloc(),
        Alpha1,
        '\\',
        Any,
    );
    let got = outcome_at::<&str, usize, Modal, _>(&mut parser, "ab\\ncd\\\\;");
    same(&rt, "escaped", "into a number", got, (Ok(4), ";"));
    let mut parser = make::<_, _, _, Bytes, u8, u8, u8, Vec<u8>, Plain, Global>(
        rt.alloc(),
        one_of(b'a'..=b'z'),
        b'\\',
        Any,
    );
    let (answer, rest) = outcome_at::<Bytes, Vec<u8>, Plain, _>(&mut parser, "ab\\;c;");
    same(&rt, "escaped", "into a list", rest, b";".as_slice());
    assert!(rt; matches!(answer, Ok(all) if all.as_slice() == b"ab;c".as_slice()));
}

/// How calls end on complete and on partial input, accumulated into `()`.
fn endings<I: OfText + Compare<char> + Stream<Token = char>>(rt: &impl Abort, alloc: Global) {
    let text = make::<_, _, _, I, _, char, _, (), Modal, _>(alloc, Alpha1, '\\', Any);
    let as_whole = [
        Takes(0),
        Takes(1),
        Takes(2),
        backtracks_behind(3),
        Takes(4),
        Takes(5),
        Takes(6),
        Takes(6),
    ];
    let as_cut = [
        LACKS,
        lacks(1),
        lacks(1),
        lacks_one_behind(3),
        lacks_behind(4),
        lacks_one_behind(4),
        lacks_one_behind(4),
        Takes(6),
    ];
    sweep::<I, _, Modal, _>(rt, "escaped", text, "ab\\ncd;", &as_whole, &as_cut);
    let text = make::<_, _, _, I, u8, char, char, (), Modal, _>(alloc, Failing(Backtrack), 'a', 'b');
    let rows = [
        ("abab;", Takes(4), Takes(4)),
        ("aba", backtracks_behind(3), lacks_behind(3)),
    ];
    ends_each::<I, _, Modal, _>(rt, "escaped(a failure, 'a', 'b')", text, &rows);
    for kind in REFUSALS {
        let text = make::<_, _, _, I, _, u8, _, (), Modal, _>(alloc, Alpha1, Failing(kind), Any);
        let row = ("ab;-", Takes(3), Takes(3));
        ends::<I, _, Modal, _>(rt, "escaped(alpha1, a refusal, any)", text, row);
    }
    let text = make::<_, _, _, I, _, u8, _, (), Modal, _>(alloc, Alpha1, Failing(Memory), Any);
    let end = Fails(Memory, 3);
    ends::<I, _, Modal, _>(rt, "escaped(alpha1, no memory, any)", text, ("ab;-", end, end));
    for kind in HARD {
        let text = make::<_, _, _, I, u8, char, char, (), Modal, _>(alloc, Failing(kind), 'a', 'b');
        let row = ("ab", Fails(kind, 1), Fails(kind, 1));
        ends::<I, _, Modal, _>(rt, "escaped(a failure, 'a', 'b')", text, row);
    }
    for kind in [Backtrack, HARD[0], HARD[1], HARD[2]] {
        let text = make::<_, _, _, I, (), char, u8, (), Modal, _>(alloc, Fail, 'a', Failing(kind));
        let row = ("abc", Fails(kind, 2), Fails(kind, 2));
        ends::<I, _, Modal, _>(rt, "escaped(fail, 'a', a failure)", text, row);
    }
    let text = make::<_, _, _, I, _, (), (), (), Modal, _>(alloc, Alpha1, Empty, Empty);
    let rows = [
        ("1", CUTS, CUTS),
        ("a1", Fails(Cut, 1), Fails(Cut, 1)),
        ("", Takes(0), LACKS),
    ];
    ends_each::<I, _, Modal, _>(rt, "escaped(alpha1, empty, empty)", text, &rows);
}

#[test]
fn escaped_on_cut_input(rt: HostRuntime) {
    endings::<&str>(&rt, rt.alloc());
    endings::<Partial<&str>>(&rt, rt.alloc());
    endings::<Partial<LocatingSlice<&str>>>(&rt, rt.alloc());
}

/// The plain stream and the partial stream that is marked complete give the same results.
#[test]
fn escaped_on_like_streams(rt: HostRuntime) {
    for (text, want) in [
        ("12\\n3;", Takes(5)),
        ("12\\n", Takes(4)),
        ("12\\", backtracks_behind(3)),
    ] {
        let first = make::<_, _, _, &str, &str, char, char, usize, Modal, Global>(
            rt.alloc(),
            Digit1,
            '\\',
            'n',
        );
        let like = make::<_, _, _, Partial<&str>, &str, char, char, usize, Modal, Global>(
            rt.alloc(),
            Digit1,
            '\\',
            'n',
        );
        let both = (first, like);
        like_ends::<&str, Partial<&str>, usize, Modal, _, _>(&rt, "escaped", text, both, want);
    }
}
