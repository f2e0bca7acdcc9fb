//! A walk through a text from its start to its end, by the grammar of RFC 8259.
use format_json_extents::steps::{Step, is_over, read_step};

/// A text with all that JSON has, and its steps in order.
const TEXT: &[u8] =
    b" {\"a\" : [1, \"b\",null ,{}],\n\"c:\":-1.5e3, \"d\"\t:{ \"e\" :[ ]},\"f\":[true,false]} \r";

const STEPS: &[(Step, &[u8])] = &[
    (Step::BeginObject, b"{"),
    (Step::Name, b"\"a\""),
    (Step::BeginArray, b"["),
    (Step::Number, b"1"),
    (Step::String, b"\"b\""),
    (Step::Null, b"null"),
    (Step::BeginObject, b"{"),
    (Step::EndObject, b"}"),
    (Step::EndArray, b"]"),
    (Step::Name, b"\"c:\""),
    (Step::Number, b"-1.5e3"),
    (Step::Name, b"\"d\""),
    (Step::BeginObject, b"{"),
    (Step::Name, b"\"e\""),
    (Step::BeginArray, b"["),
    (Step::EndArray, b"]"),
    (Step::EndObject, b"}"),
    (Step::Name, b"\"f\""),
    (Step::BeginArray, b"["),
    (Step::True, b"true"),
    (Step::False, b"false"),
    (Step::EndArray, b"]"),
    (Step::EndObject, b"}"),
];

/// Bytes without a bracket or a value next.
const NONE: &[&[u8]] = &[b"", b" \n", b",", b",,1", b"::1", b", nul", b"+1", b"\"a", b"\"\\x\""];

#[test]
fn whole_text(rt: HostRuntime) {
    let mut input = TEXT;
    for (step, text) in STEPS {
        assert!(rt; !is_over(input));
        match read_step(&mut input) {
            Some(found) => {
                assert_eq!(rt; found.0, *step);
                assert_eq!(rt; found.1, *text);
            }
            None => panic!(rt; "{text:?}"),
        }
    }
    assert!(rt; is_over(input));
    assert_eq!(rt; input, b" \r".as_slice());
}

#[test]
fn no_steps(rt: HostRuntime) {
    for bytes in NONE {
        let mut input = *bytes;
        assert!(rt; read_step(&mut input).is_none(), "{bytes:?}");
        assert_eq!(rt; input, *bytes);
    }
}
