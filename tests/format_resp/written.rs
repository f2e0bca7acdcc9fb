//! Encoded replies and commands: the texts of the protocol's specification, and others by its
//! rules.
use crate::replies::{BOTH, NO_REPLIES, OF_RESP3, REPLIES, same};
use crate::shown::show;
use format_resp::back::{command_reads_back, reads_back};
use format_resp::read::read_reply;
use format_resp::reply::{Protocol, Reply};
use format_resp::write::{WriteError, write_command, write_reply};
use std::alloc::Global;
use std::process::Abort;
use winnow::stream::{Partial, StreamIsPartial};

type Bytes<'i> = Reply<&'i [u8], Global>;

/// The text that is written for the reply that a text is: without a plus sign and without zeros
/// that an integer or a size has first.
fn plainest(text: &'static [u8]) -> &'static [u8] {
    match text {
        b":+5\r\n" => b":5\r\n",
        b":007\r\n" => b":7\r\n",
        b":-0\r\n" => b":0\r\n",
        b":-010\r\n" => b":-10\r\n",
        b":0009223372036854775807\r\n" => b":9223372036854775807\r\n",
        b"$03\r\nfoo\r\n" => b"$3\r\nfoo\r\n",
        b"*02\r\n:1\r\n:2\r\n" => b"*2\r\n:1\r\n:2\r\n",
        _ => text,
    }
}

/// Reads a text, writes what is read, and reads that back.
fn is_written(
    rt: &impl Abort,
    alloc: Global,
    protocol: Protocol,
    (text, shown, behind): &(&'static [u8], &[u8], usize),
) {
    let mut input = Partial::new(*text);
    let _was = input.complete();
    let Ok(reply) = read_reply(alloc, protocol, 2, &mut input) else {
        same(rt, text, true, false);
        return;
    };
    let mut bytes = Vec::new(alloc);
    same(rt, text, write_reply(protocol, 2, &reply, &mut bytes), Ok(()));
    same(rt, text, bytes.as_slice(), plainest(&text[..text.len() - *behind]));
    let more = b"$3\r\nx".as_slice();
    let mut others = Vec::new(alloc);
    let Ok((again, rest)) = reads_back(alloc, protocol, 2, &reply, more, &mut others) else {
        same(rt, text, true, false);
        return;
    };
    let mut line = Vec::new(alloc);
    same(rt, text, show(&again, &mut line).is_ok(), true);
    same(rt, text, line.as_slice(), *shown);
    same(rt, text, rest, more);
}

#[test]
fn write_reply_of_what_is_read(rt: HostRuntime) {
    for row in REPLIES {
        for protocol in BOTH {
            is_written(&rt, rt.alloc(), protocol, row);
        }
    }
    for row in OF_RESP3 {
        is_written(&rt, rt.alloc(), Protocol::Resp3, row);
    }
    same(&rt, b"", NO_REPLIES.is_empty(), false);
}

/// Checks the bytes that are appended to an `x` for a reply.
fn written(rt: &impl Abort, alloc: Global, level: usize, reply: &Bytes, want: &[u8]) {
    let mut bytes = Vec::new(alloc);
    same(rt, want, bytes.push(b'x').is_ok(), true);
    same(rt, want, write_reply(Protocol::Resp3, level, reply, &mut bytes), Ok(()));
    same(rt, want, bytes.as_slice(), want);
}

/// Checks that a reply is not written.
fn refused(rt: &impl Abort, alloc: Global, level: usize, reply: &Bytes, error: WriteError) {
    let mut bytes = Vec::new(alloc);
    same(rt, b"", bytes.push(b'x').is_ok(), true);
    same(rt, b"", write_reply(Protocol::Resp3, level, reply, &mut bytes), Err(error));
    same(rt, b"", bytes.as_slice(), b"x".as_slice());
}

#[test]
fn write_reply_of_lines(rt: HostRuntime) {
    let alloc = rt.alloc();
    written(&rt, alloc, 0, &Reply::Simple(b"hello world".as_slice()), b"x+hello world\r\n");
    written(&rt, alloc, 0, &Reply::Simple(b"".as_slice()), b"x+\r\n");
    written(&rt, alloc, 0, &Reply::Error(b"ERR a".as_slice()), b"x-ERR a\r\n");
    written(&rt, alloc, 0, &Reply::Integer(1234), b"x:1234\r\n");
    written(&rt, alloc, 0, &Reply::Integer(0), b"x:0\r\n");
    written(&rt, alloc, 0, &Reply::Integer(i64::MIN), b"x:-9223372036854775808\r\n");
    written(&rt, alloc, 0, &Reply::Null, b"x_\r\n");
    written(&rt, alloc, 0, &Reply::Boolean(true), b"x#t\r\n");
    written(&rt, alloc, 0, &Reply::Boolean(false), b"x#f\r\n");
    written(&rt, alloc, 0, &Reply::Double(b"1.23".as_slice()), b"x,1.23\r\n");
    written(&rt, alloc, 0, &Reply::Double(b"-inf".as_slice()), b"x,-inf\r\n");
    written(&rt, alloc, 0, &Reply::Double(b"nan".as_slice()), b"x,nan\r\n");
    let big = b"3492890328409238509324850943850943825024385".as_slice();
    let text = b"x(3492890328409238509324850943850943825024385\r\n";
    written(&rt, alloc, 0, &Reply::BigNumber(big), text);
    written(&rt, alloc, 0, &Reply::NullBulk, b"x$-1\r\n");
    written(&rt, alloc, 0, &Reply::NullArray, b"x*-1\r\n");
}

#[test]
fn write_reply_of_bytes(rt: HostRuntime) {
    let alloc = rt.alloc();
    written(&rt, alloc, 0, &Reply::Bulk(b"hello world".as_slice()), b"x$11\r\nhello world\r\n");
    written(&rt, alloc, 0, &Reply::Bulk(b"".as_slice()), b"x$0\r\n\r\n");
    let error = b"SYNTAX invalid syntax".as_slice();
    written(&rt, alloc, 0, &Reply::BulkError(error), b"x!21\r\nSYNTAX invalid syntax\r\n");
    written(&rt, alloc, 0, &Reply::BulkError(b"\r\n".as_slice()), b"x!2\r\n\r\n\r\n");
    let text = Reply::Verbatim(b"txt:Some string".as_slice());
    written(&rt, alloc, 0, &text, b"x=15\r\ntxt:Some string\r\n");
    let empty = Reply::Verbatim(b"mkd:".as_slice());
    written(&rt, alloc, 0, &empty, b"x=4\r\nmkd:\r\n");
}

#[test]
fn write_reply_of_what_has_no_text(rt: HostRuntime) {
    let alloc = rt.alloc();
    for text in [b"O\rK".as_slice(), b"OK\n".as_slice(), b"\r\n".as_slice()] {
        refused(&rt, alloc, 0, &Reply::Simple(text), WriteError::LineBreak);
        refused(&rt, alloc, 0, &Reply::Error(text), WriteError::LineBreak);
    }
    for text in [b"".as_slice(), b"1,5".as_slice(), b"+inf".as_slice(), b"1\r\n".as_slice()] {
        refused(&rt, alloc, 0, &Reply::Double(text), WriteError::Double);
    }
    for text in [b"".as_slice(), b"1.5".as_slice(), b"-".as_slice(), b"1\n".as_slice()] {
        refused(&rt, alloc, 0, &Reply::BigNumber(text), WriteError::BigNumber);
    }
    for text in [b"".as_slice(), b"txt".as_slice(), b"tx:some".as_slice(), b"text:".as_slice()] {
        refused(&rt, alloc, 0, &Reply::Verbatim(text), WriteError::Format);
    }
}

/// These replies.
fn both<'i>(
    rt: &impl Abort,
    alloc: Global,
    first: Bytes<'i>,
    second: Bytes<'i>,
) -> Vec<Bytes<'i>, Global> {
    let mut replies = Vec::new(alloc);
    same(rt, b"", replies.push(first).is_ok(), true);
    same(rt, b"", replies.push(second).is_ok(), true);
    replies
}

/// One and two.
fn numbers<'i>(rt: &impl Abort, alloc: Global) -> Vec<Bytes<'i>, Global> {
    both(rt, alloc, Reply::Integer(1), Reply::Integer(2))
}

#[test]
fn write_reply_of_aggregates(rt: HostRuntime) {
    let alloc = rt.alloc();
    written(&rt, alloc, 1, &Reply::Array(numbers(&rt, alloc)), b"x*2\r\n:1\r\n:2\r\n");
    written(&rt, alloc, 1, &Reply::Map(numbers(&rt, alloc)), b"x%1\r\n:1\r\n:2\r\n");
    written(&rt, alloc, 1, &Reply::Set(numbers(&rt, alloc)), b"x~2\r\n:1\r\n:2\r\n");
    written(&rt, alloc, 1, &Reply::Push(numbers(&rt, alloc)), b"x>2\r\n:1\r\n:2\r\n");
    let mut three = numbers(&rt, alloc);
    same(&rt, b"|1", three.push(Reply::Null).is_ok(), true);
    written(&rt, alloc, 1, &Reply::Attributed(three), b"x|1\r\n:1\r\n:2\r\n_\r\n");
    written(&rt, alloc, 1, &Reply::Map(Vec::new(alloc)), b"x%0\r\n");
    refused(&rt, alloc, 0, &Reply::Set(Vec::new(alloc)), WriteError::Level);
    refused(&rt, alloc, 1, &Reply::Attributed(Vec::new(alloc)), WriteError::Pairs);
    refused(&rt, alloc, 1, &Reply::Attributed(numbers(&rt, alloc)), WriteError::Pairs);
    let mut odd = numbers(&rt, alloc);
    same(&rt, b"%", odd.push(Reply::Null).is_ok(), true);
    refused(&rt, alloc, 1, &Reply::Map(odd), WriteError::Pairs);
}

#[test]
fn write_reply_of_nested(rt: HostRuntime) {
    let alloc = rt.alloc();
    let inner = Reply::Set(both(&rt, alloc, Reply::Boolean(true), Reply::NullBulk));
    let outer = Reply::Map(both(&rt, alloc, Reply::Bulk(b"foo".as_slice()), inner));
    written(&rt, alloc, 2, &outer, b"x%1\r\n$3\r\nfoo\r\n~2\r\n#t\r\n$-1\r\n");
    refused(&rt, alloc, 1, &outer, WriteError::Level);
    let text = Reply::Error(b"a\nb".as_slice());
    let odd = Reply::Push(both(&rt, alloc, Reply::Null, text));
    refused(&rt, alloc, 1, &odd, WriteError::LineBreak);
}

#[test]
fn write_reply_of_another_version(rt: HostRuntime) {
    let alloc = rt.alloc();
    for (text, _shown, _behind) in OF_RESP3 {
        let mut input = Partial::new(*text);
        let _was = input.complete();
        let Ok(reply) = read_reply(alloc, Protocol::Resp3, 2, &mut input) else {
            same(&rt, text, true, false);
            return;
        };
        let mut bytes = Vec::new(alloc);
        let refused = write_reply(Protocol::Resp2, 2, &reply, &mut bytes);
        same(&rt, text, refused, Err(WriteError::Foreign));
        same(&rt, text, bytes.is_empty(), true);
    }
}

#[test]
fn reads_back_of_none(rt: HostRuntime) {
    let wrong = Reply::Double(b"x".as_slice());
    let mut bytes = Vec::new(rt.alloc());
    let none = b"".as_slice();
    let refused = reads_back(rt.alloc(), Protocol::Resp3, 2, &wrong, none, &mut bytes);
    same(&rt, b"x", matches!(refused, Err(WriteError::Double)), true);
}

#[test]
fn write_command_of_parts(rt: HostRuntime) {
    let mut bytes = Vec::new(rt.alloc());
    let parts = [b"SET".as_slice(), b"a\r\nb".as_slice(), b"".as_slice()];
    same(&rt, b"SET", write_command(parts.as_slice(), &mut bytes), Ok(()));
    let want = b"*3\r\n$3\r\nSET\r\n$4\r\na\r\nb\r\n$0\r\n\r\n".as_slice();
    same(&rt, b"SET", bytes.as_slice(), want);
    let none: [&[u8]; 0] = [];
    let refused = write_command(none.as_slice(), &mut bytes);
    same(&rt, b"none", refused, Err(WriteError::NoParts));
    same(&rt, b"none", bytes.as_slice(), want);
    let mut input = Partial::new(bytes.as_slice());
    let Ok(reply) = read_reply(rt.alloc(), Protocol::Resp2, 1, &mut input) else {
        same(&rt, b"SET", true, false);
        return;
    };
    let mut line = Vec::new(rt.alloc());
    same(&rt, b"SET", show(&reply, &mut line).is_ok(), true);
    same(&rt, b"SET", line.as_slice(), b"a[b[SET]b[a\r\nb]b[]]".as_slice());
}

#[test]
fn command_reads_back_of_parts(rt: HostRuntime) {
    let parts = [b"GET".as_slice(), b"\r\n".as_slice()];
    let mut bytes = Vec::new(rt.alloc());
    let more = b"*".as_slice();
    let Ok((reply, rest)) = command_reads_back(rt.alloc(), parts.as_slice(), more, &mut bytes)
    else {
        same(&rt, b"GET", true, false);
        return;
    };
    let mut line = Vec::new(rt.alloc());
    same(&rt, b"GET", show(&reply, &mut line).is_ok(), true);
    same(&rt, b"GET", line.as_slice(), b"a[b[GET]b[\r\n]]".as_slice());
    same(&rt, b"GET", rest, more);
    let none: [&[u8]; 0] = [];
    let mut others = Vec::new(rt.alloc());
    let refused = command_reads_back(rt.alloc(), none.as_slice(), more, &mut others);
    same(&rt, b"none", matches!(refused, Err(WriteError::NoParts)), true);
}
