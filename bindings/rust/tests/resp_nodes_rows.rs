//! Tables of Redis replies and their nodes, from Rust.
use pergidau::resp::{self, Elements, Item, Node, OwnedNodes, Protocol, Reply};
use pergidau::{Error, RequiredSize};

const REPLIES: [&[u8]; 7] = [
    b"+OK\r\n:1\r\n",
    b":-7\r\n",
    b"*3\r\n*2\r\n:1\r\n$3\r\nfoo\r\n$-1\r\n*0\r\n+",
    b"%1\r\n+a\r\n~2\r\n#t\r\n,1.5\r\n",
    b"|1\r\n+ttl\r\n:3600\r\n=5\r\ntxt:a\r\n",
    b">2\r\n!1\r\nx\r\n(12\r\n",
    b"*2\r\n_\r\n*-1\r\n",
];

fn elements_of(reply: Reply<'_>) -> Option<Elements<'_>> {
    match reply {
        Reply::Array(elements)
        | Reply::Map(elements)
        | Reply::Set(elements)
        | Reply::Push(elements)
        | Reply::Attributed(elements) => Some(elements),
        _ => None,
    }
}

/// Checks an item and its elements against the reply of the same bytes.
fn same(item: Item<'_>, reply: Reply<'_>) {
    assert_eq!(item.reply(), reply);
    let elements: Vec<_> = elements_of(reply).into_iter().flatten().map(Result::unwrap).collect();
    assert_eq!(item.elements().len(), elements.len());
    for (index, (below, wanted)) in item.elements().zip(&elements).enumerate() {
        assert_eq!(item.at(index).unwrap().reply(), *wanted);
        same(below, *wanted);
    }
    assert_eq!(item.elements().count(), elements.len());
    assert!(item.at(elements.len()).is_none());
}

#[test]
fn nodes_of_replies() {
    for bytes in REPLIES {
        let mut room = [Node::default(); 8];
        let (nodes, rest) = resp::nodes(bytes, Protocol::Resp3, 2, &mut room).unwrap();
        let (reply, left) = resp::reply(bytes, Protocol::Resp3, 2).unwrap();
        assert_eq!(rest, left);
        same(nodes.root(), reply);
        let (owned, left) = OwnedNodes::parse(bytes, Protocol::Resp3, 2).unwrap();
        assert_eq!(rest, left);
        same(owned.root(), reply);
        assert_eq!(nodes.nodes(), owned.nodes().nodes());
        assert_eq!(nodes.nodes()[0].next, nodes.nodes().len());
    }
}

#[test]
fn errors_of_nodes() {
    let mut room = [Node::default(); 2];
    let mut nodes = |bytes, max_depth| {
        resp::nodes(bytes, Protocol::Resp2, max_depth, &mut room).map(|it| it.1).err()
    };
    let small = Error::BufferTooSmall(RequiredSize { entries: 3, bytes: 0 });
    assert_eq!(nodes(b"*2\r\n:1\r\n:2\r\n", 1), Some(small));
    assert_eq!(nodes(b"*2\r\n:1\r\n", 1), Some(Error::Incomplete));
    assert_eq!(nodes(b"*2\r\n:1\r\nx", 1), Some(Error::Invalid(Some(8))));
    assert_eq!(nodes(b"*1\r\n*0\r\n", 1), Some(Error::TooDeep(4)));
    assert_eq!(nodes(b"*1\r\n:9223372036854775808\r\n", 1), Some(Error::OutOfRange(4)));
    assert_eq!(nodes(b"_\r\n", 1), Some(Error::Invalid(Some(0))));
    assert_eq!(nodes(b"+\r\n", 513), Some(Error::MaxDepthTooLarge));
    assert_eq!(OwnedNodes::parse(b"$1\r\n", Protocol::Resp2, 1).err(), Some(Error::Incomplete));
}

#[test]
fn buffers_of_nodes_grow() {
    let bytes = "*1000\r\n".to_string() + &":7\r\n".repeat(1000);
    let (nodes, rest) = OwnedNodes::parse(bytes.as_bytes(), Protocol::Resp2, 1).unwrap();
    assert_eq!((nodes.nodes().nodes().len(), rest.len()), (1001, 0));
    assert_eq!(nodes.root().at(999).unwrap().reply(), Reply::Integer(7));
    assert!(nodes.root().at(1000).is_none());
    assert_eq!(format!("{:?}", nodes.root().at(0).unwrap()), "Item { reply: Integer(7) }");
}
