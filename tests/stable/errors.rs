//! Adapters that change errors and keep their kinds.
use crate::settling::{Text, settles};
use stream_errors::empty::EmptyError;
use stream_errors::input_error::InputError;
use stream_errors::mode::ErrMode;
use stream_errors::parser_error::ParserError;
use streams::needed::Needed;
use test_support::outcomes::Kind::{Backtrack, Cut, Incomplete};
use test_support::rows::{Modal, answers_on_cut};
use winnow_ascii::ascii::impls::Digit1;
use winnow_comb::combinator::cut_err;
use winnow_comb::combinator::impls::CutErr;
use winnow_core::combinator::impls::{ErrInto, MapErrKept};
use winnow_core::parser::Parser;

/// Another error of the same mode.
fn forget(error: ErrMode<InputError<Text>>) -> Modal {
    match error {
        ErrMode::Backtrack(_) => ErrMode::Backtrack(EmptyError::from_input(&"")),
        ErrMode::Cut(_) => ErrMode::Cut(EmptyError::from_input(&"")),
        ErrMode::Incomplete(needed) => ErrMode::Incomplete(needed),
    }
}

/// Each kind is kept, and the input stays where the error arose.
#[test]
fn map_err_kept(rt: HostRuntime) {
    let mut digits = Digit1.map_err_kept(|error: ErrMode<InputError<Text>>| forget(error));
    for row in [
        ("12", Err(Incomplete(Needed::new(1))), "12"),
        ("12;", Ok("12"), ";"),
        (";", Err(Backtrack), ";"),
    ] {
        answers_on_cut::<Text, &str, Modal, _>(&rt, "map_err_kept", &mut digits, row);
    }
    let cuts: CutErr<Digit1, Text, &str, ErrMode<InputError<Text>>> = cut_err(Digit1);
    let mut digits = cuts.map_err_kept(|error: ErrMode<InputError<Text>>| forget(error));
    answers_on_cut::<Text, &str, Modal, _>(&rt, "map_err_kept", &mut digits, (";", Err(Cut), ";"));
    let digits = Digit1.map_err_kept(|error: ErrMode<InputError<Text>>| forget(error));
    settles::<Text, &str, _>(&rt, "map_err_kept", digits);
}

/// An error that is converted to its own type keeps its kind.
#[test]
fn err_into_is_settled(rt: HostRuntime) {
    let digits: ErrInto<Digit1, Text, &str, Modal, Modal> = Digit1.err_into();
    settles::<Text, &str, _>(&rt, "err_into", digits);
}
