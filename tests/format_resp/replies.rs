//! Encodings of the protocol with their replies. The texts are those of its specification, and
//! others by its rules.
use crate::shown::show;
use format_resp::read::read_reply;
use format_resp::reply::Protocol;
use std::alloc::{Allocator, Global};
use std::fmt::Debug;
use std::process::Abort;
use winnow::stream::{Partial, StreamIsPartial};

/// Both versions of the protocol.
pub const BOTH: [Protocol; 2] = [Protocol::Resp2, Protocol::Resp3];

/// A text of both versions, its reply, and the number of remaining bytes.
pub const REPLIES: &[(&[u8], &[u8], usize)] = &[
    (b"+OK\r\n", b"s[OK]", 0),
    (b"+\r\n", b"s[]", 0),
    (b"+hello world\r\n+", b"s[hello world]", 1),
    (b"-ERR unknown command 'asdf'\r\n", b"e[ERR unknown command 'asdf']", 0),
    (b"-WRONGTYPE Operation\r\n:1", b"e[WRONGTYPE Operation]", 2),
    (b":0\r\n", b"i+0", 0),
    (b":1000\r\n", b"i+1000", 0),
    (b":-1\r\n", b"i-1", 0),
    (b":9223372036854775807\r\n", b"i+9223372036854775807", 0),
    (b":-9223372036854775808\r\n", b"i-9223372036854775808", 0),
    (b":+5\r\n:", b"i+5", 1),
    (b":007\r\n", b"i+7", 0),
    (b":-0\r\n", b"i+0", 0),
    (b":-010\r\n", b"i-10", 0),
    (b":0009223372036854775807\r\n", b"i+9223372036854775807", 0),
    (b"$03\r\nfoo\r\n", b"b[foo]", 0),
    (b"*02\r\n:1\r\n:2\r\n", b"a[i+1i+2]", 0),
    (b"$6\r\nfoobar\r\n", b"b[foobar]", 0),
    (b"$5\r\nhello\r\n$", b"b[hello]", 1),
    (b"$0\r\n\r\n", b"b[]", 0),
    (b"$2\r\n\r\n\r\n", b"b[\r\n]", 0),
    (b"$3\r\n\x00\xff+\r\n", b"b[\x00\xff+]", 0),
    (b"$-1\r\n", b"n", 0),
    (b"*-1\r\n", b"N", 0),
    (b"*0\r\n", b"a[]", 0),
    (b"*2\r\n$3\r\nfoo\r\n$3\r\nbar\r\n", b"a[b[foo]b[bar]]", 0),
    (b"*3\r\n:1\r\n:2\r\n:3\r\n", b"a[i+1i+2i+3]", 0),
    (
        b"*5\r\n:1\r\n:2\r\n:3\r\n:4\r\n$5\r\nhello\r\n",
        b"a[i+1i+2i+3i+4b[hello]]",
        0,
    ),
    (
        b"*2\r\n*3\r\n:1\r\n:2\r\n:3\r\n*2\r\n+Hello\r\n-World\r\n",
        b"a[a[i+1i+2i+3]a[s[Hello]e[World]]]",
        0,
    ),
    (b"*3\r\n$5\r\nhello\r\n$-1\r\n$5\r\nworld\r\n.", b"a[b[hello]nb[world]]", 1),
    (b"*1\r\n*1\r\n*-1\r\n", b"a[a[N]]", 0),
];

/// Likewise for RESP3 only.
pub const OF_RESP3: &[(&[u8], &[u8], usize)] = &[
    (b"_\r\n", b"0", 0),
    (b"_\r\n_", b"0", 1),
    (b"#t\r\n", b"T", 0),
    (b"#f\r\n#", b"F", 1),
    (b",1.23\r\n", b"d[1.23]", 0),
    (b",10\r\n,", b"d[10]", 1),
    (b",inf\r\n", b"d[inf]", 0),
    (b",-inf\r\n", b"d[-inf]", 0),
    (b",nan\r\n", b"d[nan]", 0),
    (b",-1.5e+300\r\n", b"d[-1.5e+300]", 0),
    (b",-nan\r\n", b"d[-nan]", 0),
    (
        b"(3492890328409238509324850943850943825024385\r\n",
        b"g[3492890328409238509324850943850943825024385]",
        0,
    ),
    (b"(-7\r\n(", b"g[-7]", 1),
    (
        b"!21\r\nSYNTAX invalid syntax\r\n",
        b"E[SYNTAX invalid syntax]",
        0,
    ),
    (b"!2\r\n\r\n\r\n!", b"E[\r\n]", 1),
    (b"=15\r\ntxt:Some string\r\n", b"v[txt]/[Some string]", 0),
    (b"=4\r\nmkd:\r\n=", b"v[mkd]/[]", 1),
    (b"=6\r\n\r\n\0:\r\n\r\n", b"v[\r\n\0]/[\r\n]", 0),
    (
        b"*2\r\n*3\r\n:1\r\n$5\r\nhello\r\n:2\r\n#f\r\n",
        b"a[a[i+1b[hello]i+2]F]",
        0,
    ),
    (
        b"%2\r\n+first\r\n:1\r\n+second\r\n:2\r\n%",
        b"m[s[first]i+1s[second]i+2]",
        1,
    ),
    (b"%0\r\n", b"m[]", 0),
    (
        b"~5\r\n+orange\r\n+apple\r\n#t\r\n:100\r\n:999\r\n",
        b"t[s[orange]s[apple]Ti+100i+999]",
        0,
    ),
    (
        b">4\r\n+pubsub\r\n+message\r\n+somechannel\r\n+this is the message\r\n$9\r\nGet-Reply\r\n",
        b"p[s[pubsub]s[message]s[somechannel]s[this is the message]]",
        15,
    ),
    (
        b"|1\r\n+key-popularity\r\n%2\r\n$1\r\na\r\n,0.1923\r\n$1\r\nb\r\n,0.0012\r\n\
        *2\r\n:2039123\r\n:9543892\r\n",
        b"A[s[key-popularity]m[b[a]d[0.1923]b[b]d[0.0012]]a[i+2039123i+9543892]]",
        0,
    ),
    (
        b"*3\r\n:1\r\n:2\r\n|1\r\n+ttl\r\n:3600\r\n:3\r\n",
        b"a[i+1i+2A[s[ttl]i+3600i+3]]",
        0,
    ),
    (b"|0\r\n_\r\n_", b"A[0]", 1),
    (b"*3\r\n$-1\r\n*-1\r\n_\r\n", b"a[nN0]", 0),
];

/// Texts that do not start with a reply nested at most two deep, regardless of what follows.
pub const NO_REPLIES: &[&[u8]] = &[
    b"OK\r\n",
    b"\r\n",
    b"+O\nK\r\n",
    b"+O\rK\r\n",
    b":\r\n",
    b":1.5\r\n",
    b":12 \r\n",
    b":9223372036854775808\r\n",
    b"$-2\r\n",
    b"$1\r\nab\r\n",
    b"$3\r\nab\r\n\r\n",
    b"$\r\nab\r\n",
    b"*-2\r\n",
    b"*1\r\nx\r\n",
    b"*2\r\n:1\r\n:x\r\n",
    b"*1\r\n*1\r\n*1\r\n:1\r\n",
    b"*1\r\n*1\r\n*0\r\n",
    b"_0\r\n",
    b"_\n",
    b"#\r\n",
    b"#true\r\n",
    b"#T\r\n",
    b",\r\n",
    b",.5\r\n",
    b",+inf\r\n",
    b",1 \r\n",
    b"(\r\n",
    b"(1.5\r\n",
    b"$?\r\n;4\r\nHell\r\n;0\r\n",
    b"*?\r\n:1\r\n.\r\n",
    b"!-1\r\n",
    b"!1\r\nab\r\n",
    b"=-1\r\n",
    b"=3\r\ntxt\r\n",
    b"=4\r\ntext\r\n",
    b"=2\r\nt:\r\n",
    b"=0\r\n\r\n",
    b"%-1\r\n",
    b"~-1\r\n",
    b">-1\r\n",
    b"|-1\r\n",
    b"%1\r\n:1\r\nx",
    b"|1\r\n:1\r\n:2\r\nx",
    b"~1\r\n%1\r\n:1\r\n>1\r\n",
    b"|0\r\n|0\r\n*0\r\n",
    b"$+3\r\nfoo\r\n",
    b"*+1\r\n:1\r\n",
    b"$-01\r\n",
    b"$-0\r\n\r\n",
    b":+\r\n",
    b":--1\r\n",
    b":+-1\r\n",
    b"$9223372036854775808\r\n",
    b",--nan\r\n",
    b",+nan\r\n",
];

pub fn same<T: PartialEq + Debug + Drop>(rt: &impl Abort, row: &[u8], got: T, want: T) {
    assert_eq!(rt; got, want, "{row:?}");
}

/// Reads a reply of two levels at most from a whole text.
fn is_read(
    rt: &impl Abort,
    alloc: Global,
    protocol: Protocol,
    (text, want, behind): &(&[u8], &[u8], usize),
) {
    let mut input = Partial::new(*text);
    let _was = input.complete();
    match read_reply(alloc, protocol, 2, &mut input) {
        Ok(reply) => {
            let mut line = Vec::new(alloc);
            same(rt, text, show(&reply, &mut line).is_ok(), true);
            same(rt, text, line.as_slice(), *want);
            same(rt, text, input.as_inner().len(), *behind);
        }
        Err(_) => same(rt, text, true, false),
    }
}

fn is_refused(rt: &impl Abort, alloc: Global, protocol: Protocol, text: &[u8]) {
    let mut input = Partial::new(text);
    let _was = input.complete();
    same(rt, text, read_reply(alloc, protocol, 2, &mut input).is_err(), true);
}

#[test]
fn read_reply_of_replies(rt: HostRuntime) {
    for row in REPLIES {
        for protocol in BOTH {
            is_read(&rt, rt.alloc(), protocol, row);
        }
    }
    for row in OF_RESP3 {
        is_read(&rt, rt.alloc(), Protocol::Resp3, row);
        is_refused(&rt, rt.alloc(), Protocol::Resp2, row.0);
    }
}

#[test]
fn read_reply_of_none(rt: HostRuntime) {
    for text in NO_REPLIES {
        for protocol in BOTH {
            is_refused(&rt, rt.alloc(), protocol, text);
        }
    }
}

#[test]
fn read_reply_by_levels(rt: HostRuntime) {
    let resp3 = Protocol::Resp3;
    for mark in b"*~>" {
        let text = [*mark, b'1', b'\r', b'\n', *mark, b'1', b'\r', b'\n', b'_', b'\r', b'\n'];
        for (level, is) in [(0, false), (1, false), (2, true), (3, true)] {
            let mut input = Partial::new(text.as_slice());
            same(&rt, &text, read_reply(rt.alloc(), resp3, level, &mut input).is_ok(), is);
        }
    }
    let text = b"*1\r\n*1\r\n:1\r\n".as_slice();
    for (level, is) in [(0, false), (1, false), (2, true), (3, true)] {
        let mut input = Partial::new(text);
        same(&rt, text, read_reply(rt.alloc(), Protocol::Resp2, level, &mut input).is_ok(), is);
    }
    for flat in [b"*-1\r\n".as_slice(), b"$-1\r\n".as_slice(), b"_\r\n".as_slice()] {
        let mut input = Partial::new(flat);
        same(&rt, flat, read_reply(rt.alloc(), resp3, 0, &mut input).is_ok(), true);
    }
}
