//! The names and values of the fields that were read, as slices.
use crate::heads::{HEADS, same};
use crate::responses;
use format_http::bodies::framing::{BodyLength, FramingError, Message, body_length};
use format_http::heads::field_line;
use format_http::heads::fields::Fields;
use format_http_places::places::{Field, Span};
use format_http_places::read::read_head_into;
use format_http_places::response::read_response_head_into;
use format_http_places::slices::{FieldsAt, slice_at};
use std::process::Abort;

const NOWHERE: Span = Span {
    offset: 0,
    length: 0,
};

const NO_FIELD: Field = Field {
    name: NOWHERE,
    value: NOWHERE,
};

#[test]
fn slice_at_of_spans(rt: HostRuntime) {
    let bytes = b"abc".as_slice();
    let far = 18446744073709551615;
    for (offset, length, want) in [
        (0, 3, b"abc".as_slice()),
        (1, 1, b"b"),
        (3, 0, b""),
        (2, 2, b"c"),
        (0, far, b"abc"),
        (4, 1, b""),
        (far, far, b""),
    ] {
        same(&rt, bytes, slice_at(bytes, Span { offset, length }), want);
    }
}

/// Checks the names and values at positions.
fn same_fields(rt: &impl Abort, bytes: &[u8], fields: &[Field], want: &[(&[u8], &[u8])]) {
    let mut left = FieldsAt { bytes, fields };
    for pair in want {
        let found = left.next();
        same(rt, bytes, found, Some(field_line::Field { name: pair.0, value: pair.1 }));
    }
    same(rt, bytes, left.next(), None);
}

#[test]
fn fields_at_of_heads(rt: HostRuntime) {
    for row in HEADS {
        let mut fields = [NO_FIELD; 9];
        if let Ok(head) = read_head_into(row.0, &mut fields) {
            same_fields(&rt, row.0, &fields[..head.fields], row.3);
        }
    }
    for row in responses::HEADS {
        let mut fields = [NO_FIELD; 9];
        if let Ok(head) = read_response_head_into(row.0, &mut fields) {
            same_fields(&rt, row.0, &fields[..head.fields], row.4);
        }
    }
}

/// Lengths by RFC 9112, section 6.3, of the fields that were read.
#[test]
fn body_length_of_positions(rt: HostRuntime) {
    for (text, want) in [
        (b"GET / HTTP/1.1\r\n\r\n".as_slice(), Ok(BodyLength::NoBody)),
        (b"GET / HTTP/1.1\r\ncontent-length: 7\r\n\r\n", Ok(BodyLength::Length(7))),
        (b"GET / HTTP/1.1\r\nTransfer-Encoding:chunked\r\n\r\n", Ok(BodyLength::Chunked)),
        (
            b"GET / HTTP/1.1\r\nContent-Length: 7\r\nX: 1\r\nContent-Length: 8\r\n\r\n",
            Err(FramingError::LengthsDiffer),
        ),
    ] {
        let mut fields = [NO_FIELD; 3];
        if let Ok(head) = read_head_into(text, &mut fields) {
            let read = FieldsAt { bytes: text, fields: &fields[..head.fields] };
            same(&rt, text, body_length(Message::Request, 1, 1, read), want);
        } else {
            same(&rt, text, 0, 1);
        }
    }
}
