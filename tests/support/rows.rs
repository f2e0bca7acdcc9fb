//! The comparisons of rows. One that fails names the parser and its input.
use crate::outcomes::{Ending, Kind, Outcome, ending_by_place, ending_of, outcome_of};
use crate::texts::{OfText, completed, whole};
use std::fmt::Debug;
use std::process::Abort;
use stream_errors::empty::EmptyError;
use stream_errors::input_error::InputError;
use stream_errors::mode::ErrMode;
use stream_errors::parser_error::ParserError;
use streams::stream::{Location, Stream};
use winnow_core::parser::Parser;

/// Errors with a mode.
pub type Modal = ErrMode<EmptyError>;

/// Errors with a mode that hold the input.
pub type ModalAt<I> = ErrMode<InputError<I>>;

/// A text, and how a parser ends on it where it is whole, and where it is cut.
pub type Row = (&'static str, Ending, Ending);

/// A text, the result of a parser on it as complete input, and the rest.
pub type Answer<O> = (&'static str, Result<O, Kind>, &'static str);

/// Checks a result of `name` at `row`.
pub fn same<T: PartialEq + Debug + Drop>(rt: &impl Abort, name: &str, row: &str, got: T, want: T) {
    assert_eq!(rt; got, want, "{name} at {row:?}");
}

/// Returns the outcome of a call on complete text with this result and this rest.
pub fn outcome_in_text<I: OfText, O>(answer: Result<O, Kind>, rest: &'static str) -> Outcome<O, I> {
    (answer, whole(rest))
}

/// Converts the slice of a row to the stream's.
pub fn slice_in_text<I: OfText>(answer: Result<&'static str, Kind>) -> Result<I::Slice, Kind> {
    match answer {
        Ok(text) => Ok(I::slice_of_text(text)),
        Err(kind) => Err(kind),
    }
}

/// One run of a parser on a whole text.
pub fn outcome_at<I: OfText, O, E: ParserError<I>, P: Parser<I, O, E>>(
    parser: &mut P,
    text: &'static str,
) -> Outcome<O, I> {
    outcome_of::<I, O, E, P>(parser, whole(text))
}

/// Checks the result of a parser on complete text, and the rest.
pub fn answers<I, O, E, P>(
    rt: &impl Abort,
    name: &str,
    mut parser: P,
    text: &'static str,
    want: Result<O, Kind>,
    rest: &'static str,
)
where
    I: OfText,
    O: PartialEq + Debug + Drop,
    E: ParserError<I>,
    P: Parser<I, O, E> + Drop,
{
    let got = outcome_at::<I, O, E, P>(&mut parser, text);
    same(rt, name, text, got, outcome_in_text(want, rest));
}

/// Checks the results of consecutive calls of one parser on complete texts, and the rest of each.
pub fn answers_each<I, O, E, P>(rt: &impl Abort, name: &str, mut parser: P, rows: &[Answer<O>])
where
    I: OfText,
    O: PartialEq + Debug + Copy,
    E: ParserError<I>,
    P: Parser<I, O, E> + Drop,
{
    for (text, want, rest) in rows {
        let got = outcome_at::<I, O, E, P>(&mut parser, text);
        same(rt, name, text, got, outcome_in_text(*want, rest));
    }
}

/// The runs of one parser on whole texts answer with slices, and leave so.
pub fn slices_each<I, E, P>(
    rt: &impl Abort,
    name: &str,
    mut parser: P,
    rows: &[Answer<&'static str>],
)
where
    I: OfText,
    I::Slice: PartialEq + Debug,
    E: ParserError<I>,
    P: Parser<I, I::Slice, E> + Drop,
{
    for (text, want, rest) in rows {
        let got = outcome_at::<I, I::Slice, E, P>(&mut parser, text);
        let want = outcome_in_text(slice_in_text::<I>(*want), rest);
        same(rt, name, text, got, want);
    }
}

/// Checks the result of a parser on a text, and the rest. The text is partial input if the stream
/// is partial.
pub fn answers_on_cut<I, O, E, P>(rt: &impl Abort, name: &str, parser: &mut P, row: Answer<O>)
where
    I: OfText,
    O: PartialEq + Debug + Drop,
    E: ParserError<I>,
    P: Parser<I, O, E>,
{
    let (text, want, rest) = row;
    let got = outcome_of::<I, O, E, P>(parser, I::of_text(text));
    same(rt, name, text, got, (want, I::of_text(rest)));
}

/// Returns how a parser ends on a text, as the stream is and marked complete.
pub fn endings_at<I: OfText, O: Drop, E: ParserError<I>, P: Parser<I, O, E>>(
    parser: &mut P,
    text: &'static str,
) -> [Ending; 2] {
    [
        ending_of::<I, O, E, P>(parser, I::of_text(text)),
        ending_of::<I, O, E, P>(parser, whole(text)),
    ]
}

/// Returns the expected [`endings_at`] for the endings on complete and on partial input.
pub fn endings_in_text<I: OfText>(as_whole: Ending, as_cut: Ending) -> [Ending; 2] {
    if I::of_text("").is_partial() {
        [as_cut, as_whole]
    } else {
        [as_whole, as_whole]
    }
}

/// A parser ends so on the text where it is whole, also as marked complete, and so where it is cut.
pub fn ends<I, O, E, P>(rt: &impl Abort, name: &str, mut parser: P, row: Row)
where
    I: OfText,
    O: Drop,
    E: ParserError<I>,
    P: Parser<I, O, E> + Drop,
{
    let (text, as_whole, as_cut) = row;
    let got = endings_at::<I, O, E, P>(&mut parser, text);
    same(rt, name, text, got, endings_in_text::<I>(as_whole, as_cut));
}

/// The runs of one parser end so on each text, whole and cut.
pub fn ends_each<I, O, E, P>(rt: &impl Abort, name: &str, mut parser: P, rows: &[Row])
where
    I: OfText,
    O: Drop,
    E: ParserError<I>,
    P: Parser<I, O, E> + Drop,
{
    for (text, as_whole, as_cut) in rows {
        let got = endings_at::<I, O, E, P>(&mut parser, text);
        let want = endings_in_text::<I>(*as_whole, *as_cut);
        same(rt, name, text, got, want);
    }
}

/// The runs of one parser move the place so on each text, whole and cut.
pub fn moves_each<I, O, E, P>(rt: &impl Abort, name: &str, mut parser: P, rows: &[Row])
where
    I: OfText + Location,
    O: Drop,
    E: ParserError<I>,
    P: Parser<I, O, E> + Drop,
{
    for (text, as_whole, as_cut) in rows {
        let got = [
            ending_by_place::<I, O, E, P>(&mut parser, I::of_text(text)),
            ending_by_place::<I, O, E, P>(&mut parser, whole(text)),
        ];
        let want = endings_in_text::<I>(*as_whole, *as_cut);
        same(rt, name, text, got, want);
    }
}

/// Checks the result of a parser on complete text, and that it consumed `place` units.
pub fn answers_at<I, O, E, P>(
    rt: &impl Abort,
    name: &str,
    mut parser: P,
    text: &'static str,
    want: Result<O, Kind>,
    place: usize,
)
where
    I: OfText + Location,
    O: PartialEq + Debug + Drop,
    E: ParserError<I>,
    P: Parser<I, O, E> + Drop,
{
    let (answer, rest) = outcome_at::<I, O, E, P>(&mut parser, text);
    let got = (answer, rest.current_token_start(), rest.eof_offset());
    same(rt, name, text, got, (want, place, text.len() - place));
}

/// Checks how a parser ends on every prefix of `sample`, the empty one included, as complete and as
/// partial input. On partial input it must return `Incomplete` or end as on the whole sample.
pub fn sweep<I, O, E, P>(
    rt: &impl Abort,
    name: &str,
    mut parser: P,
    sample: &'static str,
    as_whole: &[Ending],
    as_cut: &[Ending],
)
where
    I: OfText,
    O: Drop,
    E: ParserError<I>,
    P: Parser<I, O, E> + Drop,
{
    assert!(rt;
        as_whole.len() == as_cut.len(),
        "{name} at {sample:?}: rows are missing"
    );
    let all = ending_of::<I, O, E, P>(&mut parser, whole(sample));
    for (count, (as_whole, as_cut)) in as_whole.iter().zip(as_cut.iter()).enumerate() {
        let got = ending_of::<I, O, E, P>(&mut parser, completed(I::of_beginning(sample, count)));
        assert_eq!(rt;
            got,
            *as_whole,
            "{name} at the first {count} tokens of {sample:?}"
        );
        let beginning = I::of_beginning(sample, count);
        if beginning.is_partial() {
            let got = ending_of::<I, O, E, P>(&mut parser, beginning);
            assert_eq!(rt;
                got,
                *as_cut,
                "{name} at the first {count} tokens of {sample:?}, cut"
            );
            let is_stable = got.is_incomplete() || got == all;
            assert!(rt;
                is_stable,
                "{name} at the first {count} tokens of {sample:?}, cut: {got:?}"
            );
        }
    }
}

/// A parser ends so on a text, and so does the same parser on the whole text at another stream.
pub fn like_ends<I, J, O, E, P, Q>(
    rt: &impl Abort,
    name: &str,
    text: &'static str,
    parsers: (P, Q),
    want: Ending,
)
where
    I: OfText,
    J: OfText + Stream<Token = I::Token, Seen = I::Seen, Slice = I::Slice>,
    O: Drop,
    E: ParserError<I> + ParserError<J>,
    P: Parser<I, O, E> + Drop,
    Q: Parser<J, O, E> + Drop,
{
    let (mut first, mut like) = parsers;
    let got = (
        ending_of::<I, O, E, P>(&mut first, I::of_text(text)),
        ending_of::<J, O, E, Q>(&mut like, whole(text)),
    );
    same(rt, name, text, got, (want, want));
}
