//! Fields of records, and where records end.
use std::fmt::Debug;
use std::process::Abort;
use format_csv::{LineEnd, read_record};

/// A text, the bytes of the first field of its first record, the number of fields of the record,
/// and the rest. The fields are as Python's `csv.writer` writes them, with as few quotes as
/// possible and with all. Python's strict reader reads them back.
const RECORDS: &[(&[u8], &[u8], usize, &[u8])] = &[
    (b",next", b"", 2, b""),
    (b"\r\n", b"", 1, b""),
    (b"\r\nx", b"", 1, b"x"),
    (b"\"\"", b"", 1, b""),
    (b"\"\",next", b"", 2, b""),
    (b"\"\"\r\n", b"", 1, b""),
    (b"\"\"\r\nx", b"", 1, b"x"),
    (b"a", b"a", 1, b""),
    (b"a,next", b"a", 2, b""),
    (b"a\r\n", b"a", 1, b""),
    (b"a\r\n\r\n", b"a", 1, b"\r\n"),
    (b"\"a\"", b"a", 1, b""),
    (b"\"a\",\"next\",\r\n", b"a", 3, b""),
    (b"a b ,c", b"a b ", 2, b""),
    (b" \t,c", b" \t", 2, b""),
    (b"\xc3\xa9\r\nx", b"\xc3\xa9", 1, b"x"),
    (b"\"\xc3\xa9\",", b"\xc3\xa9", 2, b""),
    (b"\"x,y\"", b"x,y", 1, b""),
    (b"\"\"\"\"", b"\"", 1, b""),
    (b"\"\"\"\",next", b"\"", 2, b""),
    (b"\"say \"\"hi\"\"\"\r\nx", b"say \"hi\"", 1, b"x"),
    (b"\"a\r\nb\",next\r\n", b"a\r\nb", 2, b""),
    (b"\"\"\"\"\"\"", b"\"\"", 1, b""),
    (b"\",\"\r\nx", b",", 1, b"x"),
    (b"\"\n\"", b"\n", 1, b""),
    (b"\"\r\"", b"\r", 1, b""),
    // Bytes that the standard does not mention.
    (b"\x01\x7f\x00,", b"\x01\x7f\x00", 2, b""),
    (b"\"\x01\x7f\x00\"", b"\x01\x7f\x00", 1, b""),
];

/// Texts that do not start with a record: an unclosed quote, a quote in the middle, a byte after a
/// closing quote, a lone line feed or carriage return outside of quotes, no bytes.
const NO_RECORDS: &[&[u8]] = &[
    b"",
    b"\"",
    b"\"a",
    b"\"a\"\"",
    b"\"a\"b",
    b"\"a\" ",
    b" \"a\"",
    b"a\"",
    b"a\"b\"",
    b"a\nb",
    b"a\rb",
    b"a\r",
    b"\n",
    b"\"a\"\r",
    b"\"a\"\n",
    b"\"a\"\"b",
    b"a,\"",
    b"a,b\"c\r\n",
];

/// A text and the rest if only line feeds end lines, or `None` if the text does not start with such
/// a record.
const BY_LINE_FEEDS: &[(&[u8], Option<&[u8]>)] = &[
    (b"a,b\nc", Some(b"c")),
    (b"\n\n", Some(b"\n")),
    (b"\"a\r\nb\"\n", Some(b"")),
    (b"a", Some(b"")),
    (b"a\r\nb", None),
    (b"\r\n", None),
    (b"", None),
];

fn same<T: PartialEq + Debug + Drop>(rt: &impl Abort, row: &[u8], got: T, want: T) {
    assert_eq!(rt; got, want, "{row:?}");
}

#[test]
fn read_record_of_records(rt: HostRuntime) {
    for (text, bytes, count, rest) in RECORDS {
        let mut input = *text;
        match read_record(rt.alloc(), LineEnd::CrLf, &mut input) {
            Ok(fields) => {
                same(&rt, text, fields.len(), *count);
                if let Some(field) = fields.first() {
                    same(&rt, text, field.as_slice(), *bytes);
                }
                same(&rt, text, input, *rest);
            }
            Err(error) => same(&rt, text, Err(error), Ok(())),
        }
    }
}

#[test]
fn read_record_of_none(rt: HostRuntime) {
    for text in NO_RECORDS {
        let mut input = *text;
        same(&rt, text, read_record(rt.alloc(), LineEnd::CrLf, &mut input).is_err(), true);
    }
}

#[test]
fn read_record_by_line_feeds(rt: HostRuntime) {
    for (text, want) in BY_LINE_FEEDS {
        let mut input = *text;
        let is_read = read_record(rt.alloc(), LineEnd::Lf, &mut input).is_ok();
        same(&rt, text, if is_read { Some(input) } else { None }, *want);
    }
}
