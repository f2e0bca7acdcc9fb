//! Readers of request heads and of chunked bodies. Each head is counted; the sum is of the lengths of
//! the target and of the names and values of the fields. Each slice of data is counted, and the end of
//! a body; the sum is of the lengths of the data.
use crate::text::{Outcome, Text};
use pergidau::http::{self, Chunked, Field, Step};
use pergidau::Error;

/// The size of the chunks in bytes, for incremental readers.
const PIECE: usize = 512;
const FIELDS: usize = 32;

fn length(target: &[u8], fields: impl Iterator<Item = (usize, usize)>) -> usize {
    target.len() + fields.map(|(name, value)| name + value).sum::<usize>()
}

pub fn heads(text: &Text) -> Outcome {
    let (mut out, mut fields) = (Outcome::default(), [Field::default(); FIELDS]);
    let mut rest = text.bytes();
    while let Ok(head) = http::head(rest, &mut fields) {
        out.add(length(head.target(), head.fields().map(|(name, value)| (name.len(), value.len()))));
        rest = head.rest();
    }
    out
}

pub fn heads_in_pieces(text: &Text) -> Outcome {
    let (mut out, mut fields) = (Outcome::default(), [Field::default(); FIELDS]);
    let (bytes, mut begin, mut end) = (text.bytes(), 0, 0);
    while begin < bytes.len() {
        match http::head_partial(&bytes[begin..end], &mut fields) {
            Ok(head) => {
                let parts = head.fields().map(|(name, value)| (name.len(), value.len()));
                out.add(length(head.target(), parts));
                begin = end - head.rest().len();
            }
            Err(Error::Incomplete) if end < bytes.len() => end = bytes.len().min(end + PIECE),
            Err(_) => break,
        }
    }
    out
}

/// Parses a head, and returns its length and its contribution to the sum.
fn by_httparse(bytes: &[u8]) -> httparse::Result<(usize, usize)> {
    let mut fields = [httparse::EMPTY_HEADER; FIELDS];
    let mut request = httparse::Request::new(&mut fields);
    Ok(match request.parse(bytes)? {
        httparse::Status::Complete(end) => {
            let parts = request.headers.iter().map(|it| (it.name.len(), it.value.len()));
            httparse::Status::Complete((end, length(request.path.unwrap_or("").as_bytes(), parts)))
        }
        httparse::Status::Partial => httparse::Status::Partial,
    })
}

pub fn heads_by_httparse(text: &Text) -> Outcome {
    let (mut out, mut rest) = (Outcome::default(), text.bytes());
    while let Ok(httparse::Status::Complete((end, sum))) = by_httparse(rest) {
        out.add(sum);
        rest = &rest[end..];
    }
    out
}

pub fn heads_in_pieces_by_httparse(text: &Text) -> Outcome {
    let mut out = Outcome::default();
    let (bytes, mut begin, mut end) = (text.bytes(), 0, 0);
    while begin < bytes.len() {
        match by_httparse(&bytes[begin..end]) {
            Ok(httparse::Status::Complete((length, sum))) => {
                out.add(sum);
                begin += length;
            }
            Ok(httparse::Status::Partial) if end < bytes.len() => end = bytes.len().min(end + PIECE),
            _ => break,
        }
    }
    out
}

pub fn body(text: &Text) -> Outcome {
    let (mut out, mut rest, mut body) = (Outcome::default(), text.bytes(), Chunked::new());
    loop {
        match body.advance(&mut rest) {
            Ok(Step::Data(data)) => out.add(data.len()),
            Ok(Step::Trailers(_)) => {}
            Ok(Step::End) => {
                out.add(0);
                return out;
            }
            Ok(Step::More) | Err(_) => return out,
        }
    }
}
