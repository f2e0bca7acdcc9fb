//! Date-times as numbers. The expected values are those of Python's tomllib; the digits after the
//! ninth are truncated, as the standard says.
use format_toml_nodes::date_times::{NO_DATE_TIME, TomlDateTimeParts, nanosecond, read_date_time};
use format_toml_nodes::node::{TOML_LOCAL_DATE, TOML_LOCAL_TIME, TOML_OFFSET_DATE_TIME};

const DATE: TomlDateTimeParts = TomlDateTimeParts {
    kind: TOML_LOCAL_DATE,
    year: 1979,
    month: 5,
    day: 27,
    ..NO_DATE_TIME
};

#[test]
fn read_date_time_returns_numbers(rt: HostRuntime) {
    let rows = [
        ("1979-05-27", DATE),
        (
            "1979-05-27T00:32:00.999999-07:00",
            TomlDateTimeParts {
                kind: TOML_OFFSET_DATE_TIME,
                nanosecond: 999_999_000,
                minute: 32,
                offset: -420,
                ..DATE
            },
        ),
        (
            "07:32:00.0123456789999",
            TomlDateTimeParts {
                kind: TOML_LOCAL_TIME,
                nanosecond: 12_345_678,
                hour: 7,
                minute: 32,
                ..NO_DATE_TIME
            },
        ),
    ];
    for (text, wanted) in rows {
        let found = read_date_time(rt.alloc(), text.as_bytes());
        assert!(rt; matches!(found, Ok(Some(it)) if it == wanted));
    }
    for text in ["", "1979-02-29", "24:00:00", "07:32:00Z"] {
        assert!(rt; matches!(read_date_time(rt.alloc(), text.as_bytes()), Ok(None)));
    }
}

#[test]
fn nanosecond_is_of_nine_digits(rt: HostRuntime) {
    assert_eq!(rt; nanosecond(b""), Some(0));
    assert_eq!(rt; nanosecond(b"05"), Some(50_000_000));
    assert_eq!(rt; nanosecond(b"9999999999"), Some(999_999_999));
    assert_eq!(rt; nanosecond(b"5x"), None);
}
