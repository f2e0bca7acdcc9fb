//! Numbers with a fraction and an exponent: the text, its parts, and the exact decimal.

use format_json_texts::decimal::{Decimal, as_decimal};
use test_support::rows::Modal;
use winnow::Func;
use winnow::ascii::impls::{Digit0, Digit1};
use winnow::combinator::{alt, opt, preceded};
use winnow::prelude::*;
use winnow::token::one_of;

/// The parts of a number. The text of the exponent has its sign.
#[derive(Clone, Copy, Debug, PartialEq, Eq)]
struct Float<'i> {
    text: &'i str,
    is_negative: bool,
    whole: &'i str,
    fraction: Option<&'i str>,
    exponent: Option<&'i str>,
}

/// Parses a number as JSON writes it (RFC 8259, section 6).
fn read_float<'i>(input: &mut &'i str) -> Result<Float<'i>, Modal> {
    let whole = alt(("0", (one_of('1'..='9'), Digit0).take()));
    let exponent = (opt(one_of(['+', '-'])), Digit1).take();
    let parts = (
        opt('-'),
        whole,
        opt(preceded('.', Digit1)),
        opt(preceded(one_of(['e', 'E']), exponent)),
    );
    let ((sign, whole, fraction, exponent), text) = parts.with_taken().parse_next(input)?;
    Ok(Float {
        text,
        is_negative: sign.is_some(),
        whole,
        fraction,
        exponent,
    })
}

/// Parses a number as an exact decimal.
fn read_decimal(input: &mut &str) -> Result<Decimal, Modal> {
    let number = read_float(input)?;
    match as_decimal(number.text.as_bytes()) {
        Ok(decimal) => Ok(decimal),
        Err(_) => Err(Modal::from_input(input)),
    }
}

/// Parses a number as the nearest `f64`.
fn read_f64(input: &mut &str) -> Result<f64, Modal> {
    Func(read_float)
        .map(|number| number.text)
        .parse_to()
        .parse_next(input)
}

#[test]
fn parts(rt: HostRuntime) {
    let mut input = "-12.50e+3;";
    let wanted = Float {
        text: "-12.50e+3",
        is_negative: true,
        whole: "12",
        fraction: Some("50"),
        exponent: Some("+3"),
    };
    assert_eq!(rt; read_float(&mut input).ok(), Some(wanted));
    assert_eq!(rt; input, ";");
    let mut input = "01";
    assert_eq!(rt; read_float(&mut input).map(|it| it.text).ok(), Some("0"));
    assert_eq!(rt; input, "1");
    for text in ["+1", ".5", "-", "x"] {
        let mut input = text;
        assert!(rt; read_float(&mut input).is_err());
    }
}

// As Python's `decimal.Decimal(text).normalize().as_tuple()`.
#[test]
fn decimals(rt: HostRuntime) {
    for (text, negative, digits, exponent) in [
        ("-12.50e+3", true, 125, 2),
        ("0.1", false, 1, -1),
        ("1500", false, 15, 2),
        ("1E-7", false, 1, -7),
    ] {
        let mut input = text;
        let wanted = Decimal {
            negative,
            digits,
            exponent,
        };
        assert_eq!(rt; read_decimal(&mut input).ok(), Some(wanted));
    }
    assert!(rt; read_decimal(&mut "18446744073709551617").is_err());
}

#[test]
fn nearest(rt: HostRuntime) {
    assert_eq!(rt; read_f64(&mut "-12.50e+3").ok(), Some(-12500.0));
    assert_eq!(rt; read_f64(&mut "0.1;").ok(), Some(0.1));
    assert!(rt; read_f64(&mut "x").is_err());
}
