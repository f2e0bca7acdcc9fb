//! Deeply nested formulas: pending operators are kept in a list, not on the call stack.
use readers::calc::value;
use readers::fault::ReadError;
use std::alloc::Global;
use std::process::Abort;
use std::test::Fail;
use test_support::rows::same;

/// Writes `first`, then `times` times `part`, then `last`.
fn text_of(
    alloc: Global,
    first: &str,
    (part, times): (&str, usize),
    last: &str,
) -> Result<String, Fail> {
    let mut text = String::new(alloc);
    text.push_str(first)?;
    for _ in 0..times {
        text.push_str(part)?;
    }
    text.push_str(last)?;
    Ok(text)
}

/// Checks the value or the error of a formula with `times` times a part.
fn comes_to(
    rt: &impl Abort,
    alloc: Global,
    (first, part, times, last): (&str, &str, usize, &str),
    want: Result<i64, ReadError>,
) -> Result<(), Fail> {
    let text = text_of(alloc, first, (part, times), last)?;
    let got = value(alloc, text.as_str());
    assert_eq!(rt; got, want, "{first:?}, {times} times {part:?}, {last:?}");
    Ok(())
}

/// Operators with nested operands.
#[test]
fn operators_in_one_another(rt: HostRuntime) -> Result<(), Fail> {
    let alloc = rt.alloc();
    comes_to(&rt, alloc, ("", "-", 100_000, "1"), Ok(1))?;
    comes_to(&rt, alloc, ("1", "^1", 50_000, ""), Ok(1))?;
    // The innermost exponent is negative.
    comes_to(
        &rt,
        alloc,
        ("1", "^-1^1", 1_000, ""),
        Err(ReadError::Invalid(5_001)),
    )?;
    comes_to(&rt, alloc, ("1", "^+1", 1_000, ""), Ok(1))
}

/// Operators side by side.
#[test]
fn operators_side_by_side(rt: HostRuntime) -> Result<(), Fail> {
    let alloc = rt.alloc();
    comes_to(&rt, alloc, ("1", "!", 1_000, ""), Ok(1))?;
    comes_to(&rt, alloc, ("1", "-1", 1_000, ""), Ok(-999))?;
    comes_to(&rt, alloc, ("0", "+2*3", 1_000, ""), Ok(6_000))
}

/// Formulas that end before their operand, and brackets, which the calculator has not.
#[test]
fn deep_formulas_that_are_refused(rt: HostRuntime) -> Result<(), Fail> {
    let alloc = rt.alloc();
    comes_to(
        &rt,
        alloc,
        ("", "-", 10_000, ""),
        Err(ReadError::Invalid(10_000)),
    )?;
    comes_to(
        &rt,
        alloc,
        ("1", "^1", 1_000, "^"),
        Err(ReadError::Invalid(2_002)),
    )?;
    comes_to(
        &rt,
        alloc,
        ("", "-", 1_000, "1=1=1"),
        Err(ReadError::Invalid(1_003)),
    )?;
    comes_to(&rt, alloc, ("", "(", 1_000, "1"), Err(ReadError::Invalid(0)))?;
    comes_to(&rt, alloc, ("1", "(", 1_000, ""), Err(ReadError::Invalid(1)))
}
