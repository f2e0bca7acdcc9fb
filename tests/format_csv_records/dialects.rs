//! Dialects that there are, and those that there are not.
use format_csv_records::dialect::{Dialect, DialectError, LineEnds};

/// A delimiter, a quote, and why they are invalid.
const IMPOSSIBLE: &[(u8, u8, DialectError)] = &[
    (b',', b',', DialectError::DelimiterIsQuote),
    (b'\n', b'\n', DialectError::DelimiterIsQuote),
    (b'\n', b'"', DialectError::DelimiterEndsLines),
    (b'\r', b'\n', DialectError::DelimiterEndsLines),
    (b',', b'\r', DialectError::QuoteEndsLines),
    (b',', b'\n', DialectError::QuoteEndsLines),
];

#[test]
fn impossible_dialects_are_refused(rt: HostRuntime) {
    for (delimiter, quote, fault) in IMPOSSIBLE {
        match Dialect::new(*delimiter, *quote, LineEnds::Either) {
            Err(told) => assert_eq!(rt; told, *fault),
            Ok(_) => assert!(rt; false),
        }
    }
}

#[test]
fn the_standard_is_one(rt: HostRuntime) {
    match Dialect::new(b',', b'"', LineEnds::CrLf) {
        Ok(dialect) => {
            let standard = Dialect::standard();
            assert_eq!(rt; dialect.delimiter, standard.delimiter);
            assert_eq!(rt; dialect.quote, standard.quote);
            assert_eq!(rt; dialect.ends, standard.ends);
        }
        Err(_) => assert!(rt; false),
    }
}
