//! Dates and times from their bytes: the examples of TOML 1.0 and of RFC 3339 (section 5.8), and
//! the ranges of its section 5.7.
use std::alloc::{Allocator, Global};
use format_toml_tree::date_times::date_time;
use format_toml_tree::value::{Date, DateTime, Offset, Time};
use test_support::refusing::Refusing;

/// The numbers of a date; of none, zeros.
fn day<A: Allocator>(found: &Option<DateTime<A>>) -> (u16, u8, u8) {
    match found {
        Some(DateTime::Offset(date, _, _) | DateTime::Local(date, _) | DateTime::Date(date)) => {
            (date.year, date.month, date.day)
        }
        _ => (0, 0, 0),
    }
}

/// The time, if there is one.
fn time<A: Allocator>(found: &Option<DateTime<A>>) -> Option<&Time<A>> {
    match found {
        Some(DateTime::Offset(_, time, _) | DateTime::Local(_, time) | DateTime::Time(time)) => {
            Some(time)
        }
        _ => None,
    }
}

/// The offset, if there is one.
fn offset<A: Allocator>(found: &Option<DateTime<A>>) -> Option<Offset> {
    match found {
        Some(DateTime::Offset(_, _, offset)) => Some(*offset),
        _ => None,
    }
}

/// A text, its day, its hour, minute, second and fraction, and its offset.
type Row = (&'static str, (u16, u8, u8), Option<(u8, u8, u8, &'static str)>, Option<Offset>);

const READ: &[Row] = &[
    ("1979-05-27T07:32:00Z", (1979, 5, 27), Some((7, 32, 0, "")), Some(Offset::Zulu)),
    (
        "1979-05-27T00:32:00.999999-07:00",
        (1979, 5, 27),
        Some((0, 32, 0, "999999")),
        Some(Offset::Minutes(-420)),
    ),
    ("1979-05-27 07:32:00z", (1979, 5, 27), Some((7, 32, 0, "")), Some(Offset::Zulu)),
    ("1979-05-27t07:32:00", (1979, 5, 27), Some((7, 32, 0, "")), None),
    ("1979-05-27", (1979, 5, 27), None, None),
    ("07:32:00", (0, 0, 0), Some((7, 32, 0, "")), None),
    ("00:32:00.999999", (0, 0, 0), Some((0, 32, 0, "999999")), None),
    ("1985-04-12T23:20:50.52Z", (1985, 4, 12), Some((23, 20, 50, "52")), Some(Offset::Zulu)),
    (
        "1996-12-19T16:39:57-08:00",
        (1996, 12, 19),
        Some((16, 39, 57, "")),
        Some(Offset::Minutes(-480)),
    ),
    ("1990-12-31T23:59:60Z", (1990, 12, 31), Some((23, 59, 60, "")), Some(Offset::Zulu)),
    (
        "1937-01-01T12:00:27.87+00:20",
        (1937, 1, 1),
        Some((12, 0, 27, "87")),
        Some(Offset::Minutes(20)),
    ),
    ("2000-02-29", (2000, 2, 29), None, None),
    ("2024-02-29", (2024, 2, 29), None, None),
    ("9999-12-31", (9999, 12, 31), None, None),
    ("23:59:59.000", (0, 0, 0), Some((23, 59, 59, "000")), None),
    ("0000-01-01", (0, 1, 1), None, None),
];

/// No date and no time.
const NONE: &[&str] = &[
    "", "1", "1979", "1979-05", "1979-05-2", "1979-5-27", "1979-00-27", "1979-13-27", "1979-05-00",
    "1979-05-32", "1979-04-31", "1979-06-31", "1979-09-31", "1979-11-31", "1979-02-29",
    "1900-02-29", "2100-02-29", "2000-02-30", "19790-05-27", "979-05-27", "-1979-05-27",
    "1979/05/27", "1979-05-27T", "1979-05-27 ", "1979-05-27_07:32:00", "1979-05-2707:32:00",
    "1979-05-27T07:32", "1979-05-27T7:32:00", "1979-05-27T24:00:00", "1979-05-27T07:60:00",
    "1979-05-27T07:32:61", "1979-05-27T07:32:00.", "1979-05-27T07:32:00.Z",
    "1979-05-27T07:32:00,5", "1979-05-27T07:32:00+", "1979-05-27T07:32:00+07",
    "1979-05-27T07:32:00+0700", "1979-05-27T07:32:00+24:00", "1979-05-27T07:32:00+07:60",
    "1979-05-27T07:32:00+07:00:00", "1979-05-27T07:32:00ZZ", "1979-05-27T07:32:00 Z",
    "1979-05-27  07:32:00", "07:32", "7:32:00", "07:32:00Z", "07:32:00+07:00", "07:32:00x",
    "24:00:00", "07:60:00", "07:32:61", "T07:32:00", "1979-05-27Z", "197\u{661}-05-27",
];

#[test]
fn date_time_of_the_standards(rt: HostRuntime) {
    for (text, wanted_day, wanted_time, wanted_offset) in READ {
        let found = date_time(rt.alloc(), text.as_bytes()).unwrap_or(None);
        assert!(rt; found.is_some(), "{text}");
        assert!(rt; day(&found) == *wanted_day, "{text}");
        let same = match (time(&found), wanted_time) {
            (None, None) => true,
            (Some(time), Some((hour, minute, second, fraction))) => {
                time.hour == *hour
                    && time.minute == *minute
                    && time.second == *second
                    && time.fraction.as_str() == *fraction
            }
            _ => false,
        };
        assert!(rt; same, "{text}");
        assert!(rt; offset(&found) == *wanted_offset, "{text}");
    }
}

#[test]
fn date_time_of_what_is_none(rt: HostRuntime) {
    for text in NONE {
        assert!(rt; matches!(date_time(rt.alloc(), text.as_bytes()), Ok(None)), "{text}");
    }
}

#[test]
fn date_time_refused_memory(rt: HostRuntime) {
    let heap: Refusing<Global> = Refusing::once(rt.alloc(), 0);
    assert!(rt; date_time(&heap, b"07:32:00.5").is_err());
    assert!(rt; heap.met());
    let heap: Refusing<Global> = Refusing::once(rt.alloc(), 0);
    let date = Date { year: 1979, month: 5, day: 27 };
    let found = date_time(&heap, b"1979-05-27");
    assert!(rt; matches!(found, Ok(Some(DateTime::Date(it))) if it == date));
    assert!(rt; !heap.met());
}
