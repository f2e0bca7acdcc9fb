//! Readers of Redis replies. Each reply is counted, also inside arrays; the sum is of the integers and
//! of the lengths of the strings.
use crate::text::{Outcome, Text};
use pergidau::resp::{self, Extent, Item, Node, Protocol, Reply};
use pergidau::Error;

/// The size of the chunks in bytes, for incremental readers: the payload of a packet.
const PIECE: usize = 1460;
const LEVELS: usize = 7;

fn count(reply: Reply, out: &mut Outcome) {
    match reply {
        Reply::Simple(text) | Reply::Error(text) | Reply::Bulk(text) => out.add(text.len()),
        Reply::Integer(value) => out.add(value as usize),
        Reply::NullBulk | Reply::NullArray => out.add(0),
        Reply::Array(elements) => {
            out.add(0);
            elements.flatten().for_each(|it| count(it, out));
        }
        // The inputs are of RESP2.
        _ => {}
    }
}

pub fn replies(text: &Text) -> Outcome {
    let (mut out, mut rest) = (Outcome::default(), text.bytes());
    while let Ok((reply, behind)) = resp::reply(rest, Protocol::Resp2, LEVELS) {
        count(reply, &mut out);
        rest = behind;
    }
    out
}

fn count_item(item: Item, out: &mut Outcome) {
    match item.reply() {
        Reply::Array(_) => {
            out.add(0);
            item.elements().for_each(|it| count_item(it, out));
        }
        reply => count(reply, out),
    }
}

pub fn replies_by_nodes(text: &Text) -> Outcome {
    let (mut out, mut rest) = (Outcome::default(), text.bytes());
    let mut room = vec![Node::default(); 16];
    loop {
        let entries = match resp::nodes(rest, Protocol::Resp2, LEVELS, &mut room) {
            Ok((nodes, behind)) => {
                count_item(nodes.root(), &mut out);
                rest = behind;
                continue;
            }
            Err(Error::BufferTooSmall(required)) => required.entries,
            Err(_) => return out,
        };
        room.resize(entries, Node::default());
    }
}

pub fn replies_in_pieces(text: &Text) -> Outcome {
    let (mut out, mut extent) = (Outcome::default(), Extent::new(Protocol::Resp2));
    let (bytes, mut begin, mut end) = (text.bytes(), 0, 0);
    while begin < bytes.len() {
        match extent.advance(&bytes[begin..end]) {
            Ok(Some(length)) => {
                let whole = &bytes[begin..][..length];
                if let Ok((reply, _)) = resp::reply(whole, Protocol::Resp2, LEVELS) {
                    count(reply, &mut out);
                }
                begin += length;
                extent = Extent::new(Protocol::Resp2);
            }
            Ok(None) if end < bytes.len() => end = bytes.len().min(end + PIECE),
            _ => break,
        }
    }
    out
}
