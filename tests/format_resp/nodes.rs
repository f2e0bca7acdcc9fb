//! Nodes of replies, compared with rows written by hand and with the replies that are read.
use crate::extents::REFUSED;
use crate::replies::{BOTH, NO_REPLIES, OF_RESP3, REPLIES, same};
use format_resp::bounded::bounded_length;
use format_resp::extent::{Invalid, Reason};
use format_resp::node::{
    NO_NODE, RESP_ARRAY, RESP_ATTRIBUTES, RESP_BIG_NUMBER, RESP_BOOLEAN, RESP_BULK,
    RESP_BULK_ERROR, RESP_DOUBLE, RESP_ERROR, RESP_INTEGER, RESP_MAP, RESP_NULL, RESP_NULL_ARRAY,
    RESP_NULL_BULK, RESP_PUSH, RESP_SET, RESP_SIMPLE, RESP_VERBATIM, RespNode,
};
use format_resp::nodes::{NodesSize, write_nodes};
use format_resp::read::read_reply;
use format_resp::reply::{Protocol, Reply};
use std::alloc::Global;
use std::process::Abort;
use winnow::stream::{Partial, StreamIsPartial};

/// Kinds and numbers, how many elements there are, where the bytes or the elements start and end,
/// and the next node after all in them.
type Row = (u32, i64, usize, usize, usize, usize);

/// A text of RESP3 and its nodes.
const TEXTS: &[(&[u8], &[Row])] = &[
    (b"+OK\r\n", &[(RESP_SIMPLE, 0, 0, 1, 3, 1)]),
    (b"-\r\n", &[(RESP_ERROR, 0, 0, 1, 1, 1)]),
    (b":-007\r\n:1", &[(RESP_INTEGER, -7, 0, 0, 0, 1)]),
    (b"$03\r\nf\r\n\r\n", &[(RESP_BULK, 0, 0, 5, 8, 1)]),
    (b"$0\r\n\r\n", &[(RESP_BULK, 0, 0, 4, 4, 1)]),
    (b"$-1\r\n", &[(RESP_NULL_BULK, 0, 0, 0, 0, 1)]),
    (b"*-1\r\n", &[(RESP_NULL_ARRAY, 0, 0, 0, 0, 1)]),
    (b"_\r\n", &[(RESP_NULL, 0, 0, 0, 0, 1)]),
    (b"#t\r\n", &[(RESP_BOOLEAN, 1, 0, 0, 0, 1)]),
    (b"#f\r\n", &[(RESP_BOOLEAN, 0, 0, 0, 0, 1)]),
    (b",1.5\r\n", &[(RESP_DOUBLE, 0, 0, 1, 4, 1)]),
    (b"(-7\r\n", &[(RESP_BIG_NUMBER, 0, 0, 1, 3, 1)]),
    (b"!2\r\nab\r\n", &[(RESP_BULK_ERROR, 0, 0, 4, 6, 1)]),
    (b"=5\r\ntxt:a\r\n", &[(RESP_VERBATIM, 0, 0, 4, 9, 1)]),
    (b"*0\r\n", &[(RESP_ARRAY, 0, 0, 4, 4, 1)]),
    (b">0\r\n>", &[(RESP_PUSH, 0, 0, 4, 4, 1)]),
    (
        b"*2\r\n*2\r\n:7\r\n*0\r\n$3\r\nfoo\r\n*",
        &[
            (RESP_ARRAY, 0, 2, 4, 25, 5),
            (RESP_ARRAY, 0, 2, 8, 16, 4),
            (RESP_INTEGER, 7, 0, 0, 0, 3),
            (RESP_ARRAY, 0, 0, 16, 16, 4),
            (RESP_BULK, 0, 0, 20, 23, 5),
        ],
    ),
    (
        b"%1\r\n+a\r\n~1\r\n|1\r\n+b\r\n_\r\n,1\r\n",
        &[
            (RESP_MAP, 0, 2, 4, 27, 7),
            (RESP_SIMPLE, 0, 0, 5, 6, 2),
            (RESP_SET, 0, 1, 12, 27, 7),
            (RESP_ATTRIBUTES, 0, 3, 16, 27, 7),
            (RESP_SIMPLE, 0, 0, 17, 18, 5),
            (RESP_NULL, 0, 0, 0, 0, 6),
            (RESP_DOUBLE, 0, 0, 24, 25, 7),
        ],
    ),
];

fn row(node: RespNode) -> Row {
    (node.kind, node.number, node.elements, node.start, node.end, node.next)
}

#[test]
fn rows(rt: HostRuntime) {
    for (text, wanted) in TEXTS {
        let mut nodes = [NO_NODE; 16];
        let Ok(Some(size)) = write_nodes(Protocol::Resp3, 3, text, &mut nodes) else {
            same(&rt, text, true, false);
            return;
        };
        same(&rt, text, size.count, wanted.len());
        for index in 0..wanted.len() {
            same(&rt, text, row(nodes[index]), wanted[index]);
        }
        same(&rt, text, nodes[wanted.len()], NO_NODE);
    }
}

#[test]
fn smaller_buffers(rt: HostRuntime) {
    let (text, rows) = TEXTS[TEXTS.len() - 1];
    let other = RespNode { kind: 99, ..NO_NODE };
    let want = Ok(Some(NodesSize { count: 7, length: 27 }));
    for size in 0..=9 {
        let mut nodes = [other; 9];
        same(&rt, text, write_nodes(Protocol::Resp3, 3, text, &mut nodes[..size]), want);
        for index in 0..9 {
            let node = if index < size && index < 7 { rows[index] } else { row(other) };
            same(&rt, text, row(nodes[index]), node);
        }
    }
    let deep = Err(Invalid { reason: Reason::TooDeep, offset: 12 });
    same(&rt, text, write_nodes(Protocol::Resp3, 2, text, &mut []), deep);
}

/// Checks the node of a reply with bytes.
fn has_bytes(rt: &impl Abort, text: &[u8], node: RespNode, kind: u32, bytes: &[u8]) {
    same(rt, text, (node.kind, node.number, node.elements), (kind, 0, 0));
    same(rt, text, &text[node.start..node.end], bytes);
    same(rt, text, &text[node.end..node.end + 2], b"\r\n".as_slice());
}

/// Checks the node of a reply with only a number.
fn has_number(rt: &impl Abort, text: &[u8], node: RespNode, kind: u32, number: i64) {
    same(rt, text, (node.kind, node.number, node.elements), (kind, number, 0));
    same(rt, text, (node.start, node.end), (0, 0));
}

/// Checks the nodes of an aggregate, and returns the index after them.
fn has_list(
    rt: &impl Abort,
    text: &[u8],
    nodes: &[RespNode],
    index: usize,
    kind: u32,
    list: &[Reply<&[u8], Global>],
) -> usize {
    let node = nodes[index];
    same(rt, text, (node.kind, node.number, node.elements), (kind, 0, list.len()));
    let mut next = index + 1;
    for reply in list.iter() {
        next = has_nodes(rt, text, nodes, next, reply);
    }
    next
}

/// Checks the nodes of a reply, and returns the index after them.
fn has_nodes(
    rt: &impl Abort,
    text: &[u8],
    nodes: &[RespNode],
    index: usize,
    reply: &Reply<&[u8], Global>,
) -> usize {
    let node = nodes[index];
    let mut next = index + 1;
    match reply {
        Reply::Simple(bytes) => has_bytes(rt, text, node, RESP_SIMPLE, bytes),
        Reply::Error(bytes) => has_bytes(rt, text, node, RESP_ERROR, bytes),
        Reply::Integer(number) => has_number(rt, text, node, RESP_INTEGER, *number),
        Reply::Bulk(bytes) => has_bytes(rt, text, node, RESP_BULK, bytes),
        Reply::NullBulk => has_number(rt, text, node, RESP_NULL_BULK, 0),
        Reply::NullArray => has_number(rt, text, node, RESP_NULL_ARRAY, 0),
        Reply::Null => has_number(rt, text, node, RESP_NULL, 0),
        Reply::Boolean(yes) => has_number(rt, text, node, RESP_BOOLEAN, i64::from(*yes)),
        Reply::Double(bytes) => has_bytes(rt, text, node, RESP_DOUBLE, bytes),
        Reply::BigNumber(bytes) => has_bytes(rt, text, node, RESP_BIG_NUMBER, bytes),
        Reply::BulkError(bytes) => has_bytes(rt, text, node, RESP_BULK_ERROR, bytes),
        Reply::Verbatim(bytes) => has_bytes(rt, text, node, RESP_VERBATIM, bytes),
        Reply::Array(list) => next = has_list(rt, text, nodes, index, RESP_ARRAY, list),
        Reply::Map(list) => next = has_list(rt, text, nodes, index, RESP_MAP, list),
        Reply::Set(list) => next = has_list(rt, text, nodes, index, RESP_SET, list),
        Reply::Push(list) => next = has_list(rt, text, nodes, index, RESP_PUSH, list),
        Reply::Attributed(list) => {
            next = has_list(rt, text, nodes, index, RESP_ATTRIBUTES, list);
        }
    }
    same(rt, text, node.next, next);
    next
}

/// Compares the nodes of a text with the reply that is read at this depth, if there is one, and the
/// other results with those of the search for its end.
fn as_read(rt: &impl Abort, alloc: Global, protocol: Protocol, depth: usize, text: &[u8]) {
    let mut nodes = [NO_NODE; 64];
    let found = write_nodes(protocol, depth, text, &mut nodes);
    let length = match found {
        Ok(Some(size)) => Ok(Some(size.length)),
        Ok(None) => Ok(None),
        Err(invalid) => Err(invalid),
    };
    same(rt, text, length, bounded_length(protocol, depth, text));
    let mut input = Partial::new(text);
    let _was = input.complete();
    match read_reply(alloc, protocol, depth, &mut input) {
        Ok(reply) => {
            let next = has_nodes(rt, text, &nodes, 0, &reply);
            let length = text.len() - input.as_inner().len();
            same(rt, text, found, Ok(Some(NodesSize { count: next, length })));
        }
        Err(_) => same(rt, text, matches!(found, Ok(Some(_))), false),
    }
}

/// Compares each prefix of a text, at each depth up to 3.
fn each_as_read(rt: &impl Abort, alloc: Global, protocol: Protocol, text: &[u8]) {
    for end in 0..=text.len() {
        for depth in 0..4 {
            as_read(rt, alloc, protocol, depth, &text[..end]);
        }
    }
}

#[test]
fn nodes_are_of_the_reply(rt: HostRuntime) {
    for protocol in BOTH {
        for (text, _, _) in REPLIES {
            each_as_read(&rt, rt.alloc(), protocol, text);
        }
        for (text, _, _) in OF_RESP3 {
            each_as_read(&rt, rt.alloc(), protocol, text);
        }
        for (text, _, _, _) in REFUSED {
            each_as_read(&rt, rt.alloc(), protocol, text);
        }
        for text in NO_REPLIES {
            each_as_read(&rt, rt.alloc(), protocol, text);
        }
    }
}

/// Parts of encodings: random ones are sequences of these.
const PARTS: &[&[u8]] = &[
    b"+a\r\n", b"-\r\n", b":-12\r\n", b":0\r\n", b"$1\r\nb\r\n", b"$0\r\n\r\n", b"$-1\r\n",
    b"*-1\r\n", b"_\r\n", b"#t\r\n", b",1e5\r\n", b"(7\r\n", b"!1\r\nx\r\n", b"=4\r\ntxt:\r\n",
    b"*0\r\n", b"*1\r\n", b"*2\r\n", b"*3\r\n", b"%1\r\n", b"%2\r\n", b"~2\r\n", b">1\r\n",
    b"|0\r\n", b"|1\r\n", b"*2\r\n", b"~1\r\n", b"*x\r\n",
];

#[test]
fn nodes_of_random_replies(rt: HostRuntime) {
    let mut state = 7_u64;
    for _ in 0..3000 {
        let mut text = [b'.'; 96];
        let mut end = 0;
        for _ in 0..14 {
            state = state.wrapping_mul(6364136223846793005).wrapping_add(1442695040888963407);
            let part = PARTS[(state >> 33) as usize % PARTS.len()];
            for byte in part.iter() {
                if end < text.len() {
                    text[end] = *byte;
                    end += 1;
                }
            }
        }
        as_read(&rt, rt.alloc(), Protocol::Resp3, 4, &text);
        as_read(&rt, rt.alloc(), Protocol::Resp2, 4, &text);
    }
}
