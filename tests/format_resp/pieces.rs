//! Replies on every prefix, and how many bytes are needed.
use crate::replies::{BOTH, NO_REPLIES, OF_RESP3, REPLIES, same};
use format_resp::read::read_reply;
use format_resp::reply::Protocol;
use std::alloc::{Allocator, Global};
use std::process::Abort;
use winnow::error::{ErrMode, Needed};
use winnow::stream::{Partial, StreamIsPartial};

/// The result for a prefix.
#[derive(Clone, Copy, Debug, PartialEq)]
enum Told {
    /// A reply, and how many bytes it takes.
    Reply(usize),
    /// More bytes are needed, and how many, if that is known.
    Asks(Option<usize>),
    /// There is none.
    None,
}

fn told<A: Allocator + Copy>(alloc: A, protocol: Protocol, piece: &[u8]) -> Told {
    let mut input = Partial::new(piece);
    match read_reply(alloc, protocol, 2, &mut input) {
        Ok(_) => Told::Reply(piece.len() - input.as_inner().len()),
        Err(ErrMode::Incomplete(Needed::Size(more))) => Told::Asks(Some(more.get())),
        Err(ErrMode::Incomplete(Needed::Unknown)) => Told::Asks(None),
        Err(_) => Told::None,
    }
}

/// Reads each part of a text from its start.
fn is_read_at_every_cut(
    rt: &impl Abort,
    alloc: Global,
    protocol: Protocol,
    (text, _shown, behind): &(&[u8], &[u8], usize),
) {
    let length = text.len() - behind;
    for cut in 0..text.len() + 1 {
        match told(alloc, protocol, &text[..cut]) {
            Told::Reply(taken) => {
                same(rt, text, cut >= length, true);
                same(rt, text, taken, length);
            }
            Told::Asks(_) => same(rt, text, cut < length, true),
            Told::None => same(rt, text, true, false),
        }
    }
}

#[test]
fn read_reply_at_every_cut(rt: HostRuntime) {
    for row in REPLIES {
        for protocol in BOTH {
            is_read_at_every_cut(&rt, rt.alloc(), protocol, row);
        }
    }
    for row in OF_RESP3 {
        is_read_at_every_cut(&rt, rt.alloc(), Protocol::Resp3, row);
        same(&rt, row.0, matches!(told(rt.alloc(), Protocol::Resp2, row.0), Told::None), true);
    }
}

/// The first byte of a reply decides whether more input is needed.
#[test]
fn read_reply_asks_for_a_mark_alone(rt: HostRuntime) {
    for protocol in BOTH {
        same(&rt, b"", told(rt.alloc(), protocol, b""), Told::Asks(Some(1)));
        for byte in b"x?;.\r\n 0" {
            same(&rt, &[*byte], told(rt.alloc(), protocol, &[*byte]), Told::None);
        }
    }
    for byte in b"_#,(!=%~>|" {
        same(&rt, &[*byte], told(rt.alloc(), Protocol::Resp2, &[*byte]), Told::None);
        let asks = matches!(told(rt.alloc(), Protocol::Resp3, &[*byte]), Told::Asks(_));
        same(&rt, &[*byte], asks, true);
    }
}

#[test]
fn read_reply_of_none_at_every_cut(rt: HostRuntime) {
    for text in NO_REPLIES {
        for protocol in BOTH {
            same(&rt, text, told(rt.alloc(), protocol, text), Told::None);
            for cut in 0..text.len() {
                let read = matches!(told(rt.alloc(), protocol, &text[..cut]), Told::Reply(_));
                same(&rt, text, read, false);
            }
        }
    }
}

/// Pieces of bulk strings, and how many of their bytes are missing.
#[test]
fn read_reply_asks_for_so_many(rt: HostRuntime) {
    let rows: [(&[u8], usize); 8] = [
        (b"!6\r\nERR", 3),
        (b"=8\r\ntxt:", 4),
        (b"$6\r\n", 6),
        (b"$6\r\nfoo", 3),
        (b"$6\r\nfooba", 1),
        (b"$1000000\r\nfoo", 999997),
        (b"%1\r\n$3\r\nfoo\r\n$3\r\nb", 2),
        (b"$9223372036854775807\r\n", 9223372036854775807),
    ];
    for (piece, missing) in rows {
        same(&rt, piece, told(rt.alloc(), Protocol::Resp3, piece), Told::Asks(Some(missing)));
    }
}

/// The greatest sizes of aggregates, and those by which more replies would be in one than there can
/// be.
#[test]
fn read_reply_of_great_sizes(rt: HostRuntime) {
    for mark in b"*~>%|" {
        let mut piece = Vec::new(rt.alloc());
        same(&rt, b"", piece.push(*mark).is_ok(), true);
        same(&rt, b"", piece.extend_from_slice(b"9223372036854775807\r\n").is_ok(), true);
        let asks = told(rt.alloc(), Protocol::Resp3, piece.as_slice());
        same(&rt, piece.as_slice(), matches!(asks, Told::Asks(_)), true);
        piece.clear();
        same(&rt, b"", piece.push(*mark).is_ok(), true);
        same(&rt, b"", piece.extend_from_slice(b"9223372036854775808\r\n").is_ok(), true);
        same(&rt, piece.as_slice(), told(rt.alloc(), Protocol::Resp3, piece.as_slice()), Told::None);
    }
}
