//! The safe level, with the documented stack size.
use std::alloc::Global;
use std::thread::Builder;
use format_resp::read::{SAFE_DEPTH, read_reply};
use format_resp::reply::Protocol;
use winnow::stream::{Partial, StreamIsPartial};

/// Whether an integer in `level` aggregates is read at the safe level.
fn is_read(alloc: Global, protocol: Protocol, level: usize) -> bool {
    let mut bytes = Vec::new(alloc);
    for _ in 0..level {
        if bytes.extend_from_slice(b"*1\r\n".as_slice()).is_err() {
            return false;
        }
    }
    if bytes.extend_from_slice(b":7\r\n".as_slice()).is_err() {
        return false;
    }
    let mut input = Partial::new(bytes.as_slice());
    input.complete();
    read_reply(alloc, protocol, SAFE_DEPTH, &mut input).is_ok()
}

/// Whether the safe level is that up to which replies are read.
fn is_the_level(alloc: Global, protocol: Protocol) -> bool {
    is_read(alloc, protocol, SAFE_DEPTH) && !is_read(alloc, protocol, SAFE_DEPTH + 1)
}

#[test]
fn read_reply_at_the_safe_level(rt: HostRuntime) {
    let alloc = rt.alloc();
    let thread = Builder::new().stack_size(2 << 20).spawn(&rt, move || {
        is_the_level(alloc, Protocol::Resp2) && is_the_level(alloc, Protocol::Resp3)
    });
    assert!(rt; thread.is_ok_and(|it| it.join(&rt)));
}
