//! Headers of messages of the Domain Name System.
use std::fmt::Debug;
use std::process::Abort;
use format_dns::header::{Header, read_header, read_header_in_pieces};
use winnow::error::ErrMode;
use winnow::stream::Partial;

/// The header with all bits clear.
const CLEAR: Header = Header {
    id: 0,
    is_response: false,
    opcode: 0,
    is_authoritative: false,
    is_truncated: false,
    recursion_desired: false,
    recursion_available: false,
    reserved: 0,
    response_code: 0,
    question_count: 0,
    answer_count: 0,
    authority_count: 0,
    additional_count: 0,
};

/// Twelve bytes and their header, by the table of RFC 1035, section 4.1.1: one row for each field
/// with all its bits set, then a query and a response as they are seen on the wire.
const HEADERS: &[(&[u8], Header)] = &[
    (b"\0\0\0\0\0\0\0\0\0\0\0\0", CLEAR),
    (b"\xff\xfe\0\0\0\0\0\0\0\0\0\0", Header { id: 65534, ..CLEAR }),
    (b"\0\0\x80\0\0\0\0\0\0\0\0\0", Header { is_response: true, ..CLEAR }),
    (b"\0\0\x78\0\0\0\0\0\0\0\0\0", Header { opcode: 15, ..CLEAR }),
    (b"\0\0\x08\0\0\0\0\0\0\0\0\0", Header { opcode: 1, ..CLEAR }),
    (b"\0\0\x04\0\0\0\0\0\0\0\0\0", Header { is_authoritative: true, ..CLEAR }),
    (b"\0\0\x02\0\0\0\0\0\0\0\0\0", Header { is_truncated: true, ..CLEAR }),
    (b"\0\0\x01\0\0\0\0\0\0\0\0\0", Header { recursion_desired: true, ..CLEAR }),
    (b"\0\0\0\x80\0\0\0\0\0\0\0\0", Header { recursion_available: true, ..CLEAR }),
    (b"\0\0\0\x70\0\0\0\0\0\0\0\0", Header { reserved: 7, ..CLEAR }),
    (b"\0\0\0\x10\0\0\0\0\0\0\0\0", Header { reserved: 1, ..CLEAR }),
    (b"\0\0\0\x0f\0\0\0\0\0\0\0\0", Header { response_code: 15, ..CLEAR }),
    (b"\0\0\0\0\x01\x02\0\0\0\0\0\0", Header { question_count: 258, ..CLEAR }),
    (b"\0\0\0\0\0\0\x01\x02\0\0\0\0", Header { answer_count: 258, ..CLEAR }),
    (b"\0\0\0\0\0\0\0\0\x01\x02\0\0", Header { authority_count: 258, ..CLEAR }),
    (b"\0\0\0\0\0\0\0\0\0\0\x01\x02", Header { additional_count: 258, ..CLEAR }),
    (
        b"\xaa\xaa\x01\0\0\x01\0\0\0\0\0\0",
        Header {
            id: 43690,
            recursion_desired: true,
            question_count: 1,
            ..CLEAR
        },
    ),
    (
        b"\xaa\xaa\x81\x83\0\x01\0\0\0\x01\0\0",
        Header {
            id: 43690,
            is_response: true,
            recursion_desired: true,
            recursion_available: true,
            response_code: 3,
            question_count: 1,
            authority_count: 1,
            ..CLEAR
        },
    ),
];

fn same<T: PartialEq + Debug + Drop>(rt: &impl Abort, row: &[u8], got: T, want: T) {
    assert_eq!(rt; got, want, "{row:?}");
}

#[test]
fn read_header_of_headers(rt: HostRuntime) {
    for (bytes, header) in HEADERS {
        let mut input = *bytes;
        same(&rt, bytes, read_header(&mut input).ok(), Some(*header));
        same(&rt, bytes, input.len(), 0);
        let mut pieces = Partial::new(*bytes);
        same(&rt, bytes, read_header_in_pieces(&mut pieces).ok(), Some(*header));
    }
}

#[test]
fn read_header_of_fewer_bytes(rt: HostRuntime) {
    let bytes = b"\x12\x34\x81\x80\0\x01\0\x02\0\0\0\0".as_slice();
    for count in 0..12usize {
        let mut input = &bytes[..count];
        same(&rt, bytes, read_header(&mut input).is_err(), true);
        let mut pieces = Partial::new(&bytes[..count]);
        let answer = read_header_in_pieces(&mut pieces);
        same(&rt, bytes, matches!(answer, Err(ErrMode::Incomplete(_))), true);
    }
}

#[test]
fn read_header_leaves_what_is_behind(rt: HostRuntime) {
    let mut input = b"\x12\x34\x81\x80\0\x01\0\x02\0\0\0\0rest".as_slice();
    same(&rt, b"", read_header(&mut input).is_ok(), true);
    same(&rt, b"", input, b"rest".as_slice());
}
