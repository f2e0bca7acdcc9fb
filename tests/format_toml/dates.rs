//! Dates and times: the examples of TOML 1.0 (Offset Date-Time, Local Date-Time, Local Date, Local
//! Time), and the cases of toml-test (valid/datetime, invalid/datetime, invalid/local-date,
//! invalid/local-datetime, invalid/local-time), by their names.
use crate::shown::show;
use std::process::Abort;
use format_toml::lines::parse_lines;
use format_toml::values::read_value;
use format_toml_tree::value::{Date, DateTime, Value};

/// A case, its document, and its lines as text, with a bar after each.
const VALID: &[(&str, &str, &str)] = &[
    (
        "the standard, with an offset",
        "odt1 = 1979-05-27T07:32:00Z\nodt2 = 1979-05-27T00:32:00-07:00\n\
         odt3 = 1979-05-27T00:32:00.999999-07:00\nodt4 = 1979-05-27 07:32:00Z",
        "odt1=1979-5-27T7:32:0Z|odt2=1979-5-27T0:32:0@-420|\
         odt3=1979-5-27T0:32:0.999999@-420|odt4=1979-5-27T7:32:0Z|",
    ),
    (
        "the standard, local date and time",
        "ldt1 = 1979-05-27T07:32:00\nldt2 = 1979-05-27T00:32:00.999999",
        "ldt1=1979-5-27T7:32:0|ldt2=1979-5-27T0:32:0.999999|",
    ),
    ("the standard, local date", "ld1 = 1979-05-27", "ld1=1979-5-27|"),
    (
        "the standard, local time",
        "lt1 = 07:32:00\nlt2 = 00:32:00.999999",
        "lt1=7:32:0|lt2=0:32:0.999999|",
    ),
    (
        "datetime",
        "space = 1987-07-05 17:45:00Z\nlower = 1987-07-05t17:45:00z",
        "space=1987-7-5T17:45:0Z|lower=1987-7-5T17:45:0Z|",
    ),
    (
        "edge",
        "first-offset = 0001-01-01 00:00:00Z\nfirst-local = 0001-01-01 00:00:00\n\
         first-date = 0001-01-01\nlast-offset = 9999-12-31 23:59:59Z\n\
         last-local = 9999-12-31 23:59:59\nlast-date = 9999-12-31",
        "first-offset=1-1-1T0:0:0Z|first-local=1-1-1T0:0:0|first-date=1-1-1|\
         last-offset=9999-12-31T23:59:59Z|last-local=9999-12-31T23:59:59|last-date=9999-12-31|",
    ),
    (
        "leap-year",
        "2000-datetime = 2000-02-29 15:15:15Z\n2000-datetime-local = 2000-02-29 15:15:15\n\
         2000-date = 2000-02-29\n2024-datetime = 2024-02-29 15:15:15Z\n\
         2024-datetime-local = 2024-02-29 15:15:15\n2024-date = 2024-02-29",
        "2000-datetime=2000-2-29T15:15:15Z|2000-datetime-local=2000-2-29T15:15:15|\
         2000-date=2000-2-29|2024-datetime=2024-2-29T15:15:15Z|\
         2024-datetime-local=2024-2-29T15:15:15|2024-date=2024-2-29|",
    ),
    ("local-date", "bestdayever = 1987-07-05", "bestdayever=1987-7-5|"),
    (
        "local-time",
        "besttimeever = 17:45:00\nmilliseconds = 10:32:00.555",
        "besttimeever=17:45:0|milliseconds=10:32:0.555|",
    ),
    (
        "local",
        "local = 1987-07-05T17:45:00\nmilli = 1977-12-21T10:32:00.555\n\
         space = 1987-07-05 17:45:00",
        "local=1987-7-5T17:45:0|milli=1977-12-21T10:32:0.555|space=1987-7-5T17:45:0|",
    ),
    (
        "milliseconds",
        "utc1 = 1987-07-05T17:45:56.123Z\nutc2 = 1987-07-05T17:45:56.6Z\n\
         wita1 = 1987-07-05T17:45:56.123+08:00\nwita2 = 1987-07-05T17:45:56.6+08:00",
        "utc1=1987-7-5T17:45:56.123Z|utc2=1987-7-5T17:45:56.6Z|\
         wita1=1987-7-5T17:45:56.123@480|wita2=1987-7-5T17:45:56.6@480|",
    ),
    (
        "timezone",
        "utc = 1987-07-05T17:45:56Z\npdt = 1987-07-05T17:45:56-05:00\n\
         nzst = 1987-07-05T17:45:56+12:00\nnzdt = 1987-07-05T17:45:56+13:00  # DST",
        "utc=1987-7-5T17:45:56Z|pdt=1987-7-5T17:45:56@-300|nzst=1987-7-5T17:45:56@720|\
         nzdt=1987-7-5T17:45:56@780|",
    ),
    (
        "array",
        "dates = [\n  1987-07-05T17:45:00Z,\n  1979-05-27T07:32:00Z,\n  2006-06-01T11:00:00Z,\n]",
        "dates=[1987-7-5T17:45:0Z,1979-5-27T7:32:0Z,2006-6-1T11:0:0Z,]|",
    ),
    (
        "white space and comments",
        "a = 1979-05-27 # 07:32:00\nb = 1979-05-27 07:32:00 # c\nc = 1979-05-27\t#12:00\n\
         d = 1979-05-27 \n",
        "a=1979-5-27|b=1979-5-27T7:32:0|c=1979-5-27|d=1979-5-27|",
    ),
    (
        "in arrays and inline tables",
        "a = [1979-05-27 , 1979-05-27 07:32:00 ,07:32:00 # 12:00:00\n]\n\
         b = { c = 1979-05-27 07:32:00 , d = 1979-05-27 }",
        "a=[1979-5-27,1979-5-27T7:32:0,7:32:0,]|b={c=1979-5-27T7:32:0,d=1979-5-27,}|",
    ),
    ("keys like dates", "1979-05-27 = 1979-05-27", "1979-05-27=1979-5-27|"),
    ("a leap second", "a = 1990-12-31T23:59:60Z", "a=1990-12-31T23:59:60Z|"),
];

/// A case, and its document, which is invalid. `tests/format_toml_document` has more of toml-test.
const INVALID: &[(&str, &str)] = &[
    ("datetime/no-leads-month", "no-leads-month = 1987-7-05T17:45:00Z"),
    ("datetime/trailing-x", "d = 2006-01-30x"),
    ("local-date/feb-29", "\"not a leap year\" = 2100-02-29"),
    ("local-date/feb-30", "\"only 28 or 29 days in february\" = 1988-02-30"),
    ("local-date/no-leads", "d = 1987-7-05"),
    ("local-datetime/feb-29", "\"not a leap year\" = 2100-02-29T15:15:15"),
    ("local-datetime/feb-30", "\"only 28 or 29 days in february\" = 1988-02-30T15:15:15"),
    ("local-datetime/mday-over", "d = 2006-01-32T00:00:00"),
    ("local-datetime/mday-under", "d = 2006-01-00T00:00:00"),
    ("local-datetime/month-over", "d = 2006-13-01T00:00:00"),
    ("local-datetime/month-under", "d = 2007-00-01T00:00:00"),
    ("local-datetime/no-leads", "no-leads = 1987-7-05T17:45:00"),
    ("local-datetime/no-leads-with-milli", "with-milli = 1987-07-5T17:45:00.12"),
    ("local-datetime/no-secs", "no-secs = 1987-07-05T17:45"),
    ("local-datetime/no-t", "no-t = 1987-07-0517:45:00"),
    ("local-datetime/y10k", "d = 10000-01-01 00:00:00"),
    ("local-time/no-secs", "no-secs = 17:45"),
    // Valid only in a later version: valid/datetime/no-seconds.
    ("datetime/no-seconds", "without-seconds-1 = 13:37"),
    ("datetime/no-seconds", "without-seconds-2 = 1979-05-27 07:32Z"),
    ("datetime/no-seconds", "without-seconds-3 = 1979-05-27 07:32-07:00"),
    ("datetime/no-seconds", "without-seconds-4 = 1979-05-27T07:32"),
    ("two spaces", "d = 1979-05-27  07:32:00"),
    ("a tab", "d = 1979-05-27\t07:32:00"),
    ("a line end", "d = 1979-05-27\n07:32:00"),
    ("a number before a time", "d = 1979 07:32:00"),
    ("a time after a time", "d = 07:32:00 07:32:00"),
    ("a time with an offset", "d = 07:32:00Z"),
    ("two in an array", "d = [1979-05-27 1979-05-27]"),
];

fn same(rt: &impl Abort, case: &str, got: &str, want: &str) {
    assert_eq!(rt; got, want, "{case}");
}

#[test]
fn dates_of_toml_test_are_read(rt: HostRuntime) {
    for (case, text, want) in VALID {
        let mut into = String::new(rt.alloc());
        if let Ok(lines) = parse_lines(rt.alloc(), 1, text) {
            for line in &lines {
                assert!(rt; show(line, &mut into).is_ok());
            }
        }
        same(&rt, case, into.as_str(), want);
    }
}

#[test]
fn dates_that_toml_test_refuses_are_refused(rt: HostRuntime) {
    for (case, text) in INVALID {
        assert!(rt; parse_lines(rt.alloc(), 1, text).is_err(), "{case}");
    }
}

#[test]
fn read_value_leaves_what_is_behind_a_date(rt: HostRuntime) {
    let day = Date { year: 1979, month: 5, day: 27 };
    for (text, rest) in [
        ("1979-05-27", ""),
        ("1979-05-27 # c", " # c"),
        ("1979-05-27, 1", ", 1"),
        ("1979-05-27 1:02", " 1:02"),
        ("1979-05-27 12.5", " 12.5"),
    ] {
        let mut input = text;
        let value = read_value(rt.alloc(), 0, &mut input);
        assert!(rt; matches!(value, Ok(Value::DateTime(DateTime::Date(it))) if it == day), "{text}");
        assert_eq!(rt; input, rest, "{text}");
    }
    let mut input = "1979-05-27 07:32:00 12:00";
    let value = read_value(rt.alloc(), 0, &mut input);
    assert!(rt; matches!(value, Ok(Value::DateTime(DateTime::Local(it, _))) if it == day));
    assert_eq!(rt; input, " 12:00");
}
