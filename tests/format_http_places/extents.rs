//! Where heads end, at every cut and in many pieces.
use crate::heads::{HEADS, NO_HEADS, next, same};
use crate::responses;
use std::alloc::Global;
use std::process::Abort;
use format_http_places::extent::HeadExtent;
use format_http_places::parts::{HeadKind, HeadPart, Invalid};
use format_http_places::places::{Field, Span};
use format_http_places::read::{HeadError, read_head_into};
use format_http_places::response::read_response_head_into;
use format_http_places::state::HeadPlace;

const NOWHERE: Span = Span {
    offset: 0,
    length: 0,
};

const NO_FIELD: Field = Field {
    name: NOWHERE,
    value: NOWHERE,
};

/// The head of this length is found at every cut, in two pieces and in many.
fn ends_at_every_cut(rt: &impl Abort, kind: HeadKind, text: &'static [u8], length: usize) {
    let mut extent = HeadExtent::new(kind);
    for cut in 0..text.len() + 1 {
        let whole = cut >= length;
        let want = Ok(if whole { Some(length) } else { None });
        same(rt, text, extent.advance(&text[..cut]), want);
        same(rt, text, extent.passed, if whole { length } else { cut });
        same(rt, text, extent.place == HeadPlace::Done, whole);
        same(rt, text, HeadExtent::new(kind).advance(&text[..cut]), want);
    }
}

#[test]
fn advance_at_every_cut(rt: HostRuntime) {
    for row in HEADS {
        ends_at_every_cut(&rt, HeadKind::Request, row.0, row.0.len() - row.4.len());
    }
    for row in responses::HEADS {
        ends_at_every_cut(&rt, HeadKind::Response, row.0, row.0.len() - row.5);
    }
}

/// The text is invalid from this byte on, in this part of the head, and incomplete before.
fn never_from(rt: &impl Abort, kind: HeadKind, text: &'static [u8], place: usize, part: HeadPart) {
    let never = Err(Invalid { place, part });
    let mut extent = HeadExtent::new(kind);
    for cut in 0..place + 1 {
        same(rt, text, extent.advance(&text[..cut]), Ok(None));
    }
    same(rt, text, extent.advance(&text[..place + 1]), never);
    same(rt, text, extent.advance(text), never);
    same(rt, text, HeadExtent::new(kind).advance(text), never);
}

#[test]
fn advance_refuses(rt: HostRuntime) {
    for (text, place, part) in NO_HEADS {
        never_from(&rt, HeadKind::Request, text, *place, *part);
    }
    for (text, place, part) in responses::NO_HEADS {
        never_from(&rt, HeadKind::Response, text, *place, *part);
    }
}

/// Fewer bytes than were passed are none of the extent, and leave it.
#[test]
fn advance_of_fewer_bytes(rt: HostRuntime) {
    let mut extent = HeadExtent::new(HeadKind::Request);
    assert!(rt; extent.advance(b"GET / HT") == Ok(None));
    let before = extent;
    assert!(rt; extent.advance(b"GET") == Ok(None));
    assert!(rt; extent == before);
}

/// The result of a search that takes the text in two pieces.
fn in_two(kind: HeadKind, text: &[u8], cut: usize) -> Result<Option<usize>, Invalid> {
    let mut extent = HeadExtent::new(kind);
    let first = extent.advance(&text[..cut]);
    if first == Ok(None) { extent.advance(text) } else { first }
}

/// The result of a search if the head is read so, and its length.
fn wanted(read: Result<usize, HeadError>) -> Result<Option<usize>, Invalid> {
    match read {
        Ok(length) => Ok(Some(length)),
        Err(HeadError::Invalid(invalid)) => Err(invalid),
        Err(_) => Ok(None),
    }
}

/// A text with some bytes replaced at random, and a place in it.
fn changed(rt: &impl Abort, alloc: Global, row: &[u8], state: &mut u32) -> (Vec<u8>, usize) {
    let bytes = b"\r\n \t:aG/1.\x7f\x00\xff,H".as_slice();
    let mut text = Vec::new(alloc);
    assert!(rt; text.extend_from_slice(row).is_ok());
    for _ in 0..*state % 3 {
        *state = next(*state);
        let place = (*state >> 8) as usize % text.len();
        *state = next(*state);
        text[place] = bytes[(*state >> 8) as usize % bytes.len()];
    }
    *state = next(*state);
    let cut = (*state >> 8) as usize % text.len();
    (text, cut)
}

/// Heads with some bytes replaced at random, and random prefixes of them.
#[test]
fn advance_as_heads_are_read(rt: HostRuntime) {
    let mut state = 7u32;
    for row in HEADS {
        for _ in 0..400u32 {
            let (text, cut) = changed(&rt, rt.alloc(), row.0, &mut state);
            let read = read_head_into(&text, &mut [NO_FIELD; 8]).map(|head| head.length);
            same(&rt, row.0, in_two(HeadKind::Request, &text, cut), wanted(read));
        }
    }
    for row in responses::HEADS {
        for _ in 0..400u32 {
            let (text, cut) = changed(&rt, rt.alloc(), row.0, &mut state);
            let read = read_response_head_into(&text, &mut [NO_FIELD; 8]).map(|head| head.length);
            same(&rt, row.0, in_two(HeadKind::Response, &text, cut), wanted(read));
        }
    }
}

/// In pieces of seven bytes: were each byte looked at again in each, this would take minutes.
#[test]
fn advance_of_many_pieces(rt: HostRuntime) {
    let mut text = Vec::new(rt.alloc());
    assert!(rt; text.extend_from_slice(b"GET / HTTP/1.1\r\n".as_slice()).is_ok());
    for _ in 0..60000u32 {
        assert!(rt; text.extend_from_slice(b"Name-of-it: the value\r\n".as_slice()).is_ok());
    }
    assert!(rt; text.extend_from_slice(b"\r\n".as_slice()).is_ok());
    let mut extent = HeadExtent::new(HeadKind::Request);
    let mut there = 0;
    while there + 7 < text.len() {
        there += 7;
        assert!(rt; extent.advance(&text[..there]) == Ok(None));
    }
    assert!(rt; extent.advance(text.as_slice()) == Ok(Some(1380018)));
    assert!(rt; extent.advance(text.as_slice()) == Ok(Some(1380018)));
}

#[test]
fn invalid_is_shown(rt: HostRuntime) {
    for (part, words) in [
        (HeadPart::Method, "expected a method and a space"),
        (HeadPart::Target, "expected a request target and a space"),
        (HeadPart::Version, "expected an HTTP version"),
        (HeadPart::StatusCode, "expected a status code of three digits"),
        (HeadPart::FieldName, "expected a field name or an empty line"),
        (HeadPart::Colon, "expected a colon after the field name"),
        (HeadPart::Value, "invalid byte in a field value or reason phrase"),
        (HeadPart::LineEnding, "expected CRLF"),
    ] {
        let shown = format!(in rt.alloc(); "{part}");
        assert!(rt; matches!(shown, Ok(text) if text.as_str() == words));
    }
    let part = HeadPart::LineEnding;
    let shown = format!(in rt.alloc(); "{}", HeadError::Invalid(Invalid { place: 20, part }));
    assert!(rt; matches!(shown, Ok(text) if text.as_str() == "expected CRLF at offset 20"));
}
