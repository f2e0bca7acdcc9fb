//! The server of `examples/http_server.c` in Rust: one connection over the standard input and output.
//! `GET /hello` greets, and `POST /echo` returns its body, which may be chunked. Requests whose end is
//! ambiguous are rejected, and then the connection ends.
use pergidau::http::{self, Body, Chunked, Field, HeadExtent, Step};
use std::io::{self, Read, Write};

/// The maximum length of a head, or of a body.
const ROOM: usize = 4096;

/// The maximum number of bytes of a chunked body that are not data.
const MOST_OTHERS: usize = 16384;

/// The reason why the connection ends: the input does, or a request is rejected with a status.
enum Stop {
    End,
    Reject(&'static str, String),
}

const FIELDS_TOO_LARGE: &str = "431 Request Header Fields Too Large";

fn invalid(why: impl ToString) -> Stop {
    Stop::Reject("400 Bad Request", why.to_string())
}

fn reject(status: &'static str) -> Stop {
    Stop::Reject(status, String::new())
}

/// Reads the next input. Returns `false` if the buffer is full, or at the end of the input.
fn more(input: &mut Vec<u8>) -> bool {
    let mut piece = [0; ROOM];
    let count = io::stdin().read(&mut piece[input.len()..]).unwrap_or(0);
    input.extend_from_slice(&piece[input.len()..][..count]);
    count > 0
}

/// Returns the length of the next head.
fn read_head(input: &mut Vec<u8>) -> Result<usize, Stop> {
    // An empty line may precede a request (section 2.2 of RFC 9112).
    while (input.is_empty() || input == b"\r") && more(input) {}
    if input.starts_with(b"\r\n") {
        input.drain(..2);
    }
    let mut extent = HeadExtent::new();
    loop {
        match extent.advance(input).map_err(invalid)? {
            Some(length) => return Ok(length),
            None if more(input) => {}
            None if input.len() == ROOM => return Err(reject(FIELDS_TOO_LARGE)),
            None => return Err(Stop::End),
        }
    }
}

fn read_counted(input: &mut Vec<u8>, length: u64) -> Result<Vec<u8>, Stop> {
    let length = usize::try_from(length).ok().filter(|it| *it <= ROOM);
    let length = length.ok_or_else(|| reject("413 Content Too Large"))?;
    while input.len() < length {
        if !more(input) {
            return Err(Stop::End);
        }
    }
    Ok(input.drain(..length).collect())
}

fn read_chunked(input: &mut Vec<u8>) -> Result<Vec<u8>, Stop> {
    let (mut decoder, mut body) = (Chunked::new(), Vec::new());
    // A chunk may have one byte of data, and a long extension: the limits of the decoder are for each
    // chunk, so the sum of bytes that are not data has a limit here.
    let mut read = 0;
    loop {
        let mut left = &input[..];
        let (is_end, needs_more) = match decoder.advance(&mut left).map_err(invalid)? {
            Step::Data(data) => {
                body.extend_from_slice(data);
                (false, false)
            }
            Step::Trailers(_) => (false, false),
            Step::End => (true, false),
            Step::More => (false, true),
        };
        let taken = input.len() - left.len();
        input.drain(..taken);
        read += taken;
        if body.len() > ROOM || read - body.len() > MOST_OTHERS {
            return Err(reject("413 Content Too Large"));
        }
        if is_end {
            return Ok(body);
        }
        if needs_more && !more(input) {
            return Err(Stop::End);
        }
    }
}

/// Serves a request. Returns the status, the text, and whether the connection stays open.
fn serve(input: &mut Vec<u8>) -> Result<(&'static str, Vec<u8>, bool), Stop> {
    let length = read_head(input)?;
    let mut fields = [Field::default(); 16];
    let head = http::head(&input[..length], &mut fields).map_err(|_| reject(FIELDS_TOO_LARGE))?;
    let framing = head.framing();
    let body = framing.body.map_err(invalid)?;
    // (whether the first field of this name, if there is one, has this value)
    let is = |name, value: &str| {
        head.field(name).map_or(true, |it| it.eq_ignore_ascii_case(value.as_bytes()))
    };
    if head.version().0 != 1 {
        return Err(reject("505 HTTP Version Not Supported"));
    }
    if !is("Transfer-Encoding", "chunked") {
        return Err(reject("501 Not Implemented"));
    }
    let keeps = framing.persists;
    let hello = head.method() == b"GET" && head.target() == b"/hello";
    let echo = head.method() == b"POST" && head.target() == b"/echo";
    input.drain(..length);
    let content = match body {
        Body::Chunked => read_chunked(input)?,
        Body::Length(length) => read_counted(input, length)?,
        _ => Vec::new(),
    };
    Ok(match (hello, echo) {
        (true, _) => ("200 OK", b"hello\n".to_vec(), keeps),
        (_, true) => ("200 OK", content, keeps),
        _ => ("404 Not Found", Vec::new(), keeps),
    })
}

/// Sends a response. Returns whether the connection stays open.
fn answer(status: &str, text: &[u8], keeps: bool) -> bool {
    let connection = if keeps { "keep-alive" } else { "close" };
    let length = text.len();
    let head = format!(
        "HTTP/1.1 {status}\r\nContent-Length: {length}\r\nConnection: {connection}\r\n\r\n"
    );
    let mut out = io::stdout().lock();
    let sent = out.write_all(&[head.as_bytes(), text].concat()).and_then(|()| out.flush());
    sent.is_ok() && keeps
}

fn main() {
    let mut input = Vec::new();
    loop {
        let keeps = match serve(&mut input) {
            Ok((status, text, keeps)) => answer(status, &text, keeps),
            Err(Stop::Reject(status, why)) => answer(status, why.as_bytes(), false),
            Err(Stop::End) => false,
        };
        if !keeps {
            return;
        }
    }
}
