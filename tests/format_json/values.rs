//! Lookups in values.
use format_json::{SAFE_DEPTH, Step, Value, from_text};
use std::alloc::Global;

const TEXT: &str = "{\"a\": [1, -2, 3.0, \"\\u00e9\", null, true], \"b\": {\"c\": 4}, \"a\": false, \"\": 5}";

/// A value of a text.
fn value(alloc: Global, text: &str) -> Value<Global> {
    match from_text(alloc, SAFE_DEPTH, text) {
        Ok(value) => value,
        Err(_) => Value::Text(String::new(alloc)),
    }
}

#[test]
fn members_by_name(rt: HostRuntime) {
    let value = value(rt.alloc(), TEXT);
    assert_eq!(rt; value.members().len(), 4);
    assert!(rt; matches!(value.get("a"), Some(Value::Boolean(false))));
    assert!(rt; matches!(value.get(""), Some(five) if five.as_u64() == Some(5)));
    assert!(rt; value.get("d").is_none());
    assert!(rt; value.get("c").is_none());
    assert!(rt; value.at(0).is_none());
    assert!(rt; value.elements().is_empty());
    assert!(rt; value.as_array().is_none());
    assert!(rt; matches!(value.as_object(), Some(members) if members.len() == 4));
}

#[test]
fn elements_by_place(rt: HostRuntime) {
    let value = value(rt.alloc(), TEXT);
    let items = &value.members()[0].1;
    assert_eq!(rt; items.elements().len(), 6);
    assert!(rt; matches!(items.at(0), Some(one) if one.as_i64() == Some(1)));
    assert!(rt; matches!(items.at(1), Some(two) if two.as_i64() == Some(-2)));
    assert!(rt; matches!(items.at(1), Some(two) if two.as_u64() == None));
    assert!(rt; matches!(items.at(2), Some(three) if three.as_number() == Some("3.0")));
    assert!(rt; matches!(items.at(2), Some(three) if three.as_i64() == None));
    assert!(rt; matches!(items.at(3), Some(text) if text.as_str() == Some("\u{e9}")));
    assert!(rt; matches!(items.at(4), Some(null) if null.is_null()));
    assert!(rt; matches!(items.at(5), Some(is) if is.as_bool() == Some(true)));
    assert!(rt; items.at(6).is_none());
    assert!(rt; items.get("a").is_none());
    assert!(rt; !items.is_null());
}

#[test]
fn values_along_paths(rt: HostRuntime) {
    let value = value(rt.alloc(), TEXT);
    let found = value.along(&[Step::Name("b"), Step::Name("c")]);
    assert!(rt; matches!(found, Some(four) if four.as_u64() == Some(4)));
    assert!(rt; matches!(value.along(&[]), Some(same) if *same == value));
    assert!(rt; value.along(&[Step::Name("b"), Step::Place(0)]).is_none());
    assert!(rt; value.along(&[Step::Name("x"), Step::Name("c")]).is_none());
    let items = &value.members()[0].1;
    assert!(rt; matches!(items.along(&[Step::Place(4)]), Some(Value::Null)));
}

#[test]
fn integers(rt: HostRuntime) {
    let rows = [
        ("0", Some(0), Some(0)),
        ("-0", Some(0), None),
        ("9223372036854775807", Some(i64::MAX), Some(9_223_372_036_854_775_807)),
        ("9223372036854775808", None, Some(9_223_372_036_854_775_808)),
        ("-9223372036854775808", Some(i64::MIN), None),
        ("18446744073709551615", None, Some(u64::MAX)),
        ("18446744073709551616", None, None),
        ("1.0", None, None),
        ("1e2", None, None),
        ("\"1\"", None, None),
        ("[1]", None, None),
    ];
    for row in rows {
        let (text, signed, unsigned) = row;
        let value = value(rt.alloc(), text);
        assert_eq!(rt; value.as_i64(), signed, "{text:?}");
        assert_eq!(rt; value.as_u64(), unsigned, "{text:?}");
    }
}

#[test]
fn equal_values_and_copies(rt: HostRuntime) {
    let texts = [
        "null", "true", "false", "0", "0.0", "\"\"", "\"0\"", "[]", "[0]", "[[]]", "{}",
        "{\"a\":0}", "{\"a\":1}", "{\"b\":0}", "{\"a\":0,\"b\":1}", "{\"b\":1,\"a\":0}", TEXT,
    ];
    for (i, first) in texts.iter().enumerate() {
        let one = value(rt.alloc(), first);
        assert!(rt; matches!(one.clone(), Ok(copy) if copy == one), "{first:?}");
        for (k, second) in texts.iter().enumerate() {
            assert_eq!(rt; one == value(rt.alloc(), second), i == k, "{first:?} {second:?}");
        }
    }
}

#[test]
fn values_shown(rt: HostRuntime) {
    let value = value(rt.alloc(), "[null, {\"a\": 1}]");
    let shown = format!(in rt.alloc(); "{value:?}");
    let want = "Array([Null, Object([(\"a\", Number(\"1\"))])])";
    match shown {
        Ok(shown) => assert_eq!(rt; shown.as_str(), want),
        Err(_) => assert!(rt; false),
    }
}
