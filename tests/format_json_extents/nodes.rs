//! Nodes of texts, compared with rows written by hand and with the steps of the same text.
use format_json_extents::steps::{Step, is_over, read_step};
use format_json_extents::value::is_text;
use format_json_extents::node::{
    JSON_ARRAY, JSON_FALSE, JSON_NAME, JSON_NULL, JSON_NUMBER, JSON_OBJECT, JSON_STRING,
    JSON_TRUE, JsonNode, NO_NODE,
};
use format_json_extents::nodes::write_nodes;
use std::process::Abort;

/// Kinds, and the bytes of nodes: where they start and end, and the next node after all in them.
type Row = (u32, usize, usize, usize);

/// A text and its nodes.
const TEXTS: &[(&[u8], &[Row])] = &[
    (b"null", &[(JSON_NULL, 0, 4, 1)]),
    (b" \n-1.5e3 ", &[(JSON_NUMBER, 2, 8, 1)]),
    (b"\"a\\\"]\"", &[(JSON_STRING, 0, 6, 1)]),
    (b"[ ]", &[(JSON_ARRAY, 0, 3, 1)]),
    (b" {}", &[(JSON_OBJECT, 1, 3, 1)]),
    (
        b"[true, [[]], false]",
        &[
            (JSON_ARRAY, 0, 19, 5),
            (JSON_TRUE, 1, 5, 2),
            (JSON_ARRAY, 7, 11, 4),
            (JSON_ARRAY, 8, 10, 4),
            (JSON_FALSE, 13, 18, 5),
        ],
    ),
    (
        b"{ \"a\" : {\"b\" :1 } ,\"c\":[2 , \"d\"]}",
        &[
            (JSON_OBJECT, 0, 33, 9),
            (JSON_NAME, 2, 5, 2),
            (JSON_OBJECT, 8, 17, 5),
            (JSON_NAME, 9, 12, 4),
            (JSON_NUMBER, 14, 15, 5),
            (JSON_NAME, 19, 22, 6),
            (JSON_ARRAY, 23, 32, 9),
            (JSON_NUMBER, 24, 25, 8),
            (JSON_STRING, 28, 31, 9),
        ],
    ),
];

/// Texts that are not JSON, or are nested more than 3 deep.
const NO_TEXTS: &[&[u8]] = &[
    b"", b" ", b"nul", b"01", b"1 2", b"[1,]", b"[,1]", b"[1 2]", b"[1:2]", b"[1}", b"{\"a\"}",
    b"{\"a\":}", b"{\"a\":1,}", b"{\"a\" 1}", b"{1:2}", b"{\"a\":1]", b"[1", b"[1,", b"{\"a\":",
    b"]", b"{}}", b"[\"a\":1]", b"[[[[]]]]", b"\"\\ud800\"", b"[1],",
];

/// A text with every kind, for buffers of each size.
const ALL: &[u8] = b" {\"a\" : [1, \"b\",null ,{}],\n\"c:\":-1.5e3, \"f\":[true,false]} \r";

fn row(node: JsonNode) -> Row {
    (node.kind, node.start, node.end, node.next)
}

#[test]
fn rows(rt: HostRuntime) {
    for (text, wanted) in TEXTS {
        let mut nodes = [NO_NODE; 16];
        assert_eq!(rt; write_nodes(3, text, &mut nodes), Some(wanted.len()));
        for index in 0..wanted.len() {
            assert_eq!(rt; row(nodes[index]), wanted[index]);
        }
        assert_eq!(rt; nodes[wanted.len()], NO_NODE);
    }
}

#[test]
fn no_texts(rt: HostRuntime) {
    for text in NO_TEXTS {
        let mut nodes = [NO_NODE; 16];
        assert!(rt; !is_text(3, text));
        assert_eq!(rt; write_nodes(3, text, &mut nodes), None);
        assert_eq!(rt; write_nodes(3, text, &mut []), None);
    }
}

#[test]
fn smaller_buffers(rt: HostRuntime) {
    let mut all = [NO_NODE; 16];
    let other = JsonNode {
        kind: 99,
        ..NO_NODE
    };
    assert_eq!(rt; write_nodes(3, ALL, &mut all), Some(13));
    for size in 0..=16 {
        let mut nodes = [other; 16];
        assert_eq!(rt; write_nodes(3, ALL, &mut nodes[..size]), Some(13));
        for index in 0..16 {
            let wanted = if index < size && index < 13 { all[index] } else { other };
            assert_eq!(rt; nodes[index], wanted);
        }
    }
    assert_eq!(rt; write_nodes(2, ALL, &mut all), None);
}

/// The kind of the node that a step begins.
fn kind_of(step: Step) -> Option<u32> {
    match step {
        Step::Null => Some(JSON_NULL),
        Step::False => Some(JSON_FALSE),
        Step::True => Some(JSON_TRUE),
        Step::Number => Some(JSON_NUMBER),
        Step::String => Some(JSON_STRING),
        Step::Name => Some(JSON_NAME),
        Step::BeginArray => Some(JSON_ARRAY),
        Step::BeginObject => Some(JSON_OBJECT),
        Step::EndArray | Step::EndObject => None,
    }
}

/// Checks that nodes are those that the steps of a text begin.
fn same(rt: &impl Abort, text: &[u8], nodes: &[JsonNode]) {
    let mut input = text;
    let mut index = 0;
    while !is_over(input) {
        match read_step(&mut input) {
            Some((step, bytes)) => {
                if let Some(kind) = kind_of(step) {
                    let node = nodes[index];
                    let start = text.len() - input.len() - bytes.len();
                    assert_eq!(rt; node.kind, kind);
                    assert_eq!(rt; node.start, start);
                    assert!(rt; node.end >= start + bytes.len() && node.next > index);
                    index += 1;
                }
            }
            None => panic!(rt; "{text:?}"),
        }
    }
    assert_eq!(rt; index, nodes.len());
}

#[test]
fn steps(rt: HostRuntime) {
    let mut nodes = [NO_NODE; 16];
    for (text, wanted) in TEXTS {
        let _ = write_nodes(3, text, &mut nodes);
        same(&rt, text, &nodes[..wanted.len()]);
    }
    let _ = write_nodes(3, ALL, &mut nodes);
    same(&rt, ALL, &nodes[..13]);
}
