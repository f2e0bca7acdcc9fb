//! Stable parsers on partial input, and on longer inputs.
use std::fmt::Debug;
use std::process::Abort;
use stream_searches::compare::Compare;
use stream_searches::find::FindSlice;
use streams::partial::Partial;
use streams::stream::Stream;
use test_support::outcomes::{Kind, outcome_of};
use test_support::rows::Modal;
use test_support::texts::{OfText, completed};
use winnow_core::parser::Parser;

/// The result of a call, and the number of consumed units.
type Ran<O> = (Result<O, Kind>, usize);

/// Text that may be cut.
pub(crate) type Text = Partial<&'static str>;

/// Bytes that may be cut.
pub(crate) type Bytes = Partial<&'static [u8]>;

/// A stream of characters with lines.
pub(crate) trait Lines: OfText + Compare<&'static str> + FindSlice<(char, char)> {}

impl<I: OfText + Compare<&'static str> + FindSlice<(char, char)>> Lines for I {}

/// One run.
fn ran<I: Stream, O, P: Parser<I, O, Modal>>(parser: &mut P, input: I) -> Ran<O> {
    let before = input.eof_offset();
    let (answer, rest) = outcome_of::<I, O, Modal, P>(parser, input);
    (answer, before - rest.eof_offset())
}

/// Returns whether the result is `Incomplete`.
fn asks<O>(run: &Ran<O>) -> bool {
    matches!(run.0, Err(Kind::Incomplete(_)))
}

/// Calls a parser on the first `count` tokens of a text, and returns whether the result is
/// `Incomplete`. If it is not, each longer prefix and the whole text, on partial and on complete
/// input, must give the same result and consume as much.
pub(crate) fn settles_at<I, O, P>(
    rt: &impl Abort,
    name: &str,
    parser: &mut P,
    text: &'static str,
    count: usize,
) -> bool
where
    I: OfText,
    O: PartialEq + Debug + Drop,
    P: Parser<I, O, Modal>,
{
    let on_cut = ran::<I, O, P>(parser, I::of_beginning(text, count));
    if asks(&on_cut) {
        return true;
    }
    for longer in count..=text.len() {
        let still = ran::<I, O, P>(parser, I::of_beginning(text, longer));
        assert_eq!(rt;
            still,
            on_cut,
            "{name} at the first {longer} tokens of {text:?}, cut, beside {count}"
        );
        let whole = ran::<I, O, P>(parser, completed(I::of_beginning(text, longer)));
        assert_eq!(rt;
            whole,
            on_cut,
            "{name} at the first {longer} tokens of {text:?}, beside {count}, cut"
        );
    }
    false
}

/// Texts in which most of the parsers find something.
const TEXTS: [&str; 5] = [
    "ab:12,3;\r\n",
    "1,2,3;45,6",
    "-128;ff;+7",
    "aab[7];a\r;",
    "\r\nab\r\n1;2",
];

/// Checks every prefix of each text with `settles_at`.
pub(crate) fn settles<I, O, P>(rt: &impl Abort, name: &str, mut parser: P)
where
    I: OfText,
    O: PartialEq + Debug + Drop,
    P: Parser<I, O, Modal> + Drop,
{
    for text in TEXTS {
        for count in 0..=text.len() {
            let _asks = settles_at::<I, O, P>(rt, name, &mut parser, text, count);
        }
    }
}
