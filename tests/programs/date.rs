//! Dates and times of RFC 3339. Sections are those of the RFC.

use winnow::ascii::impls::Digit1;
use winnow::combinator::{alt, opt, preceded};
use winnow::error::{EmptyError, ErrMode};
use winnow::prelude::*;
use winnow::token::{one_of, take_while};
use winnow::{Func, FuncWith};

/// A date of the calendar.
#[derive(Clone, Copy, Debug, PartialEq, Eq)]
struct Date {
    year: u16,
    month: u8,
    day: u8,
}

/// A time of the day, with the digits of a fraction of a second.
#[derive(Clone, Copy, Debug, PartialEq, Eq)]
struct Time<'i> {
    hour: u8,
    minute: u8,
    second: u8,
    fraction: Option<&'i str>,
}

/// Parses a number of two digits that is at most `most`.
fn read_two(most: u8, input: &mut &str) -> ModalResult<u8> {
    let digits = take_while(2, '0'..='9').parse_to();
    digits
        .verify(|number: &u8| *number <= most)
        .parse_next(input)
}

/// Parses a year.
fn read_year(input: &mut &str) -> ModalResult<u16> {
    take_while(4, '0'..='9').parse_to().parse_next(input)
}

/// Returns the number of days of a month (5.7).
fn days_of(year: u16, month: u8) -> u8 {
    let is_leap = year % 4 == 0 && (year % 100 != 0 || year % 400 == 0);
    match month {
        2 if is_leap => 29,
        2 => 28,
        4 | 6 | 9 | 11 => 30,
        _ => 31,
    }
}

/// Parses a date.
fn read_date(input: &mut &str) -> ModalResult<Date> {
    let year = read_year(input)?;
    let month = preceded('-', FuncWith(12, read_two)).parse_next(input)?;
    let day = preceded('-', FuncWith(days_of(year, month), read_two)).parse_next(input)?;
    match (month, day) {
        (0, _) | (_, 0) => Err(ErrMode::from_input(input)),
        _ => Ok(Date { year, month, day }),
    }
}

/// Parses a time.
fn read_time<'i>(input: &mut &'i str) -> ModalResult<Time<'i>> {
    let hour = read_two(23, input)?;
    let minute = preceded(':', FuncWith(59, read_two)).parse_next(input)?;
    let second = preceded(':', FuncWith(60, read_two)).parse_next(input)?;
    let fraction = opt(preceded('.', Digit1)).parse_next(input)?;
    Ok(Time {
        hour,
        minute,
        second,
        fraction,
    })
}

/// Parses an offset from UTC, in minutes.
fn read_offset(input: &mut &str) -> ModalResult<i16> {
    let utc = one_of(('Z', 'z')).value(0);
    let sign = alt(('+'.value(1), '-'.value(-1)));
    let hours = (sign, FuncWith(23, read_two), ':', FuncWith(59, read_two));
    let other = hours.map(|(sign, hour, _, minute)| sign * (hour as i16 * 60 + minute as i16));
    alt((utc, other)).parse_next(input)
}

/// Parses a date and time.
fn read_date_time<'i>(input: &mut &'i str) -> ModalResult<(Date, Time<'i>, i16)> {
    let date = read_date(input)?;
    one_of(('T', 't')).parse_next(input)?;
    let time = read_time(input)?;
    let offset = read_offset(input)?;
    Ok((date, time, offset))
}

/// Parses a whole text as a date and time.
fn date_time(text: &str) -> Option<(Date, Time<'_>, i16)> {
    Parser::<_, _, ErrMode<EmptyError>>::parse(&mut Func(read_date_time), text).ok()
}

// The examples of 5.8.
#[test]
fn examples(rt: HostRuntime) {
    let rows = [
        (
            "1985-04-12T23:20:50.52Z",
            (1985, 4, 12),
            (23, 20, 50),
            Some("52"),
            0,
        ),
        (
            "1996-12-19T16:39:57-08:00",
            (1996, 12, 19),
            (16, 39, 57),
            None,
            -480,
        ),
        (
            "1990-12-31T23:59:60Z",
            (1990, 12, 31),
            (23, 59, 60),
            None,
            0,
        ),
        (
            "1990-12-31T15:59:60-08:00",
            (1990, 12, 31),
            (15, 59, 60),
            None,
            -480,
        ),
        (
            "1937-01-01T12:00:27.87+00:20",
            (1937, 1, 1),
            (12, 0, 27),
            Some("87"),
            20,
        ),
    ];
    for (text, (year, month, day), (hour, minute, second), fraction, offset) in rows {
        let date = Date { year, month, day };
        let time = Time {
            hour,
            minute,
            second,
            fraction,
        };
        assert_eq!(rt; date_time(text), Some((date, time, offset)));
    }
}

#[test]
fn days(rt: HostRuntime) {
    for text in [
        "2000-02-29",
        "2024-02-29",
        "2023-02-28",
        "2023-04-30",
        "0000-01-01",
    ] {
        assert!(rt; read_date(&mut &*text).is_ok());
    }
    for text in [
        "1900-02-29",
        "2023-02-29",
        "2023-04-31",
        "2023-13-01",
        "2023-00-01",
        "2023-01-00",
        "2023-1-01",
        "023-01-01",
        "2023/01/01",
        "+023-01-01",
        "",
    ] {
        assert!(rt; matches!(read_date(&mut &*text), Err(ErrMode::Backtrack(_))));
    }
}

#[test]
fn invalid_times(rt: HostRuntime) {
    for text in [
        "1985-04-12T24:00:00Z",
        "1985-04-12T23:60:00Z",
        "1985-04-12T23:59:61Z",
        "1985-04-12T23:59:59.Z",
        "1985-04-12T23:59:59",
        "1985-04-12 23:59:59Z",
        "1985-04-12T23:59:59+24:00",
        "1985-04-12T23:59:59+0100",
        "1985-04-12T23:59:59Z ",
    ] {
        assert_eq!(rt; date_time(text), None);
    }
}
