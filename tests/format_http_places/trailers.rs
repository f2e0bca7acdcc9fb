//! Field lines without a first line as places in their bytes.
use crate::heads::same;
use std::process::Abort;
use format_http_places::extent::HeadExtent;
use format_http_places::parts::{HeadKind, HeadPart, Invalid};
use format_http_places::places::{Field, FieldLines, Span};
use format_http_places::read::HeadError;
use format_http_places::trailers::read_field_lines_into;

/// A text, its fields, and the number of remaining bytes.
type Row = (&'static [u8], &'static [(&'static [u8], &'static [u8])], usize);

/// Field lines by the grammar of RFC 9112, sections 5 and 7.1.2.
const LINES: &[Row] = &[
    (b"\r\n", &[], 0),
    (b"\r\n\r\n", &[], 2),
    (b"Digest: a=b\r\n\r\n", &[(b"Digest", b"a=b")], 0),
    (
        b"Expires: Wed, 21 Oct 2015 07:28:00 GMT\r\nx:\r\nX: \t1 \t2\t \r\n\r\nGET",
        &[(b"Expires", b"Wed, 21 Oct 2015 07:28:00 GMT"), (b"x", b""), (b"X", b"1 \t2")],
        3,
    ),
    (b"GET: / HTTP/1.1\r\n\r\n", &[(b"GET", b"/ HTTP/1.1")], 0),
];

/// Texts that do not start with field lines and an empty line, the offset of the first byte that the
/// grammar does not allow, and the part that it is in.
const NO_LINES: &[(&[u8], usize, HeadPart)] = &[
    (b"\n", 0, HeadPart::FieldName),
    (b" a: b\r\n\r\n", 0, HeadPart::FieldName),
    (b": b\r\n\r\n", 0, HeadPart::FieldName),
    (b"\r\r\n", 1, HeadPart::LineEnding),
    (b"GET / HTTP/1.1\r\n\r\n", 3, HeadPart::Colon),
    (b"a\r\n\r\n", 1, HeadPart::Colon),
    (b"a: b\n\r\n", 4, HeadPart::Value),
    (b"a: b\r\r\n", 5, HeadPart::LineEnding),
    (b"a: b\r\n c\r\n\r\n", 6, HeadPart::FieldName),
    (b"a: b\r\n\ra", 7, HeadPart::LineEnding),
];

const NOWHERE: Span = Span {
    offset: 0,
    length: 0,
};

const NO_FIELD: Field = Field {
    name: NOWHERE,
    value: NOWHERE,
};

/// The field lines of the row were read into these entries.
fn are_lines(rt: &impl Abort, row: &Row, answer: Result<FieldLines, HeadError>, entries: &[Field]) {
    let (text, fields, left) = row;
    let want = FieldLines { fields: fields.len(), length: text.len() - *left };
    same(rt, text, answer, Ok(want));
    for (entry, (name, value)) in entries.iter().zip(fields.iter()) {
        let Field { name: at, value: stands } = *entry;
        same(rt, text, text.get(at.offset..at.offset + at.length), Some(*name));
        same(rt, text, text.get(stands.offset..stands.offset + stands.length), Some(*value));
    }
}

#[test]
fn read_field_lines_into_of_lines(rt: HostRuntime) {
    for row in LINES {
        let mut entries = [NO_FIELD; 4];
        let answer = read_field_lines_into(row.0, &mut entries);
        are_lines(&rt, row, answer, &entries);
        same(&rt, row.0, entries[row.1.len()], NO_FIELD);
        let answer = read_field_lines_into(row.0, &mut entries[..row.1.len()]);
        are_lines(&rt, row, answer, &entries);
        for room in 0..row.1.len() {
            let answer = read_field_lines_into(row.0, &mut entries[..room]);
            same(&rt, row.0, answer, Err(HeadError::TooManyFields(row.1.len())));
        }
        let mut extent = HeadExtent::new(HeadKind::Trailers);
        for count in 0..row.0.len() - row.2 {
            let answer = read_field_lines_into(&row.0[..count], &mut entries);
            same(&rt, row.0, answer, Err(HeadError::Incomplete));
            same(&rt, row.0, extent.advance(&row.0[..count]), Ok(None));
        }
        same(&rt, row.0, extent.advance(row.0), Ok(Some(row.0.len() - row.2)));
    }
}

#[test]
fn read_field_lines_into_of_none(rt: HostRuntime) {
    for (text, place, part) in NO_LINES {
        let invalid = Invalid { place: *place, part: *part };
        let mut entries = [NO_FIELD; 4];
        for cut in 0..text.len() + 1 {
            let never = cut > *place;
            let want = if never { HeadError::Invalid(invalid) } else { HeadError::Incomplete };
            same(&rt, text, read_field_lines_into(&text[..cut], &mut entries), Err(want));
            let want = if never { Err(invalid) } else { Ok(None) };
            let mut extent = HeadExtent::new(HeadKind::Trailers);
            same(&rt, text, extent.advance(&text[..cut]), want);
        }
    }
}
