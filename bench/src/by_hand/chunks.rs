//! Input that arrives in chunks, by state machines.
use crate::outcome::Outcome;

/// A machine: the state before the first byte is the default. `advance` gets all bytes from the
/// first one on, and continues after those that it has passed.
trait Machine: Default {
    fn advance(&mut self, bytes: &[u8]) -> Result<Option<usize>, usize>;
}

/// Counts the words of a machine in input that arrives in chunks.
fn words<M: Machine>(chunk: usize, text: &[u8]) -> Outcome {
    let (mut told, mut start, mut end) = (Outcome::default(), 0, 0);
    let mut machine = M::default();
    loop {
        match machine.advance(&text[start..end]) {
            Ok(Some(length)) => {
                told.count += 1;
                told.sum = told.sum.wrapping_mul(3).wrapping_add(length as u64);
                start += length;
                machine = M::default();
            }
            Ok(None) if end < text.len() => end = end.saturating_add(chunk).min(text.len()),
            Ok(None) | Err(_) => {
                told.left = (text.len() - start) as u64;
                return told;
            }
        }
    }
}

/// Returns the offset of the first byte from `at` on that is not in the set.
fn behind(bytes: &[u8], at: usize, set: impl Fn(u8) -> bool) -> usize {
    let mut at = at;
    while at < bytes.len() && set(bytes[at]) {
        at += 1;
    }
    at
}

fn is_name(byte: u8) -> bool {
    byte.is_ascii_alphanumeric() || byte == b'-'
}

fn is_visible(byte: u8) -> bool {
    byte.is_ascii_graphic()
}

fn is_value(byte: u8) -> bool {
    (byte >= b' ' && byte != 127) || byte == b'\t'
}

const PROTOCOL: &[u8; 10] = b"HTTP/1.1\r\n";

#[derive(Clone, Copy, Default)]
enum HeadPart {
    #[default]
    Start,
    Method,
    TargetStart,
    Target,
    Protocol(usize),
    Line,
    Name,
    Value,
    LineEnd,
    End,
}

#[derive(Default)]
struct Head {
    part: HeadPart,
    passed: usize,
}

impl Machine for Head {
    fn advance(&mut self, bytes: &[u8]) -> Result<Option<usize>, usize> {
        use HeadPart::*;
        let (mut part, mut at) = (self.part, self.passed);
        loop {
            at = match part {
                Method | Name => behind(bytes, at, is_name),
                Target => behind(bytes, at, is_visible),
                Value => behind(bytes, at, is_value),
                _ => at,
            };
            let Some(&byte) = bytes.get(at) else { break };
            part = match (part, byte) {
                (Start, _) if is_name(byte) => Method,
                (Method, b' ') => TargetStart,
                (TargetStart, _) if is_visible(byte) => Target,
                (Target, b' ') => Protocol(0),
                (Protocol(9), b'\n') => Line,
                (Protocol(n), _) if byte == PROTOCOL[n] => Protocol(n + 1),
                (Line, b'\r') => End,
                (Line, _) if is_name(byte) => Name,
                (Name, b':') => Value,
                (Value, b'\r') => LineEnd,
                (LineEnd, b'\n') => Line,
                (End, b'\n') => return Ok(Some(at + 1)),
                _ => return Err(at),
            };
            at += 1;
        }
        *self = Head { part, passed: at };
        Ok(None)
    }
}

#[derive(Clone, Copy, Default)]
enum FramePart {
    #[default]
    Start,
    Digits(usize),
    Data(usize),
    Comma,
}

#[derive(Default)]
struct Frame {
    part: FramePart,
    passed: usize,
}

impl Machine for Frame {
    fn advance(&mut self, bytes: &[u8]) -> Result<Option<usize>, usize> {
        use FramePart::*;
        let (mut part, mut at) = (self.part, self.passed);
        loop {
            if let Data(size) = part {
                let there = size.min(bytes.len() - at);
                at += there;
                part = if there == size { Comma } else { Data(size - there) };
            }
            let Some(&byte) = bytes.get(at) else { break };
            part = match (part, byte) {
                (Start, b'0'..=b'9') => Digits(usize::from(byte - b'0')),
                (Digits(from), b'0'..=b'9') => {
                    let number = 10 * from + usize::from(byte - b'0');
                    if number > 4096 {
                        return Err(at);
                    }
                    Digits(number)
                }
                (Digits(number), b':') => Data(number),
                (Comma, b',') => return Ok(Some(at + 1)),
                _ => return Err(at),
            };
            at += 1;
        }
        *self = Frame { part, passed: at };
        Ok(None)
    }
}

#[derive(Default)]
struct Line {
    is_quoted: bool,
    passed: usize,
}

impl Machine for Line {
    fn advance(&mut self, bytes: &[u8]) -> Result<Option<usize>, usize> {
        let (mut is_quoted, mut at) = (self.is_quoted, self.passed);
        loop {
            at = behind(bytes, at, |byte| byte != b'"' && (is_quoted || byte != b'\n'));
            match bytes.get(at) {
                None => break,
                Some(b'"') => is_quoted = !is_quoted,
                Some(_) => return Ok(Some(at + 1)),
            }
            at += 1;
        }
        *self = Line { is_quoted, passed: at };
        Ok(None)
    }
}

pub fn heads_in_chunks(chunk: usize, text: &[u8]) -> Outcome {
    words::<Head>(chunk, text)
}

pub fn frames_in_chunks(chunk: usize, text: &[u8]) -> Outcome {
    words::<Frame>(chunk, text)
}

pub fn lines_in_chunks(chunk: usize, text: &[u8]) -> Outcome {
    words::<Line>(chunk, text)
}
