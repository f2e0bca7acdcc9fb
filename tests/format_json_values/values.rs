//! Texts, and the values that they are.
use format_json_texts::value::Value;
use format_json_values::value::{parse_value, read_value};
use std::alloc::Global;
use std::process::Abort;
use test_json_support::shown::show;
use winnow::error::ParseFault;

/// The texts of section 13 of RFC 8259.
const IMAGE: &str = r#"{
        "Image": {
            "Width":  800,
            "Height": 600,
            "Title":  "View from 15th Floor",
            "Thumbnail": {
                "Url":    "http://www.example.com/image/481989943",
                "Height": 125,
                "Width":  100
            },
            "Animated" : false,
            "IDs": [116, 943, 234, 38793]
          }
      }"#;

const PLACES: &str = r#"[
        {
           "precision": "zip",
           "Latitude":  37.7668,
           "Longitude": -122.3959,
           "Address":   "",
           "City":      "SAN FRANCISCO",
           "State":     "CA",
           "Zip":       "94107",
           "Country":   "US"
        },
        {
           "precision": "zip",
           "Latitude":  37.371991,
           "Longitude": -122.026020,
           "Address":   "",
           "City":      "SUNNYVALE",
           "State":     "CA",
           "Zip":       "94085",
           "Country":   "US"
        }
      ]"#;

/// A maximum nesting depth, a text, and its value as Python's `json` reads it: `'` around each
/// string, a comma after each item.
const ROWS: &[(usize, &str, &str)] = &[
    (0, "\"Hello world!\"", "'Hello world!'"),
    (0, "42", "42"),
    (0, "true", "true"),
    (0, " \t\r\n-0.5e+07 \t\r\n", "-0.5e+07"),
    (1, "[]", "[]"),
    (1, " [ ] ", "[]"),
    (1, "{}", "{}"),
    (1, "\n{\t}\n", "{}"),
    (1, "[null,false, true ,1\t,\n\"\"]", "[null,false,true,1,'',]"),
    (1, "{\"a\":1,\"b\" :\"c\"}", "{'a':1,'b':'c',}"),
    (1, "{ \"a\" : 1 , \"a\" : 2 , \"\" : 3 }", "{'a':1,'a':2,'':3,}"),
    (1, "{\"\\u0061\\n\":\"\\ud834\\udd1e\"}", "{'a\n':'\u{1d11e}',}"),
    (2, "[[],{},[1]]", "[[],{},[1,],]"),
    (2, "{\"a\":[{\"b\":0}]}", ""),
    (3, "{\"a\":[{\"b\":0}]}", "{'a':[{'b':0,},],}"),
    (9, "[[[[]]],[[2]]]", "[[[[],],],[[2,],],]"),
    (3, IMAGE, concat!(
        "{'Image':{'Width':800,'Height':600,'Title':'View from 15th Floor','Thumbnail':{'Url':",
        "'http://www.example.com/image/481989943','Height':125,'Width':100,},'Animated':false,",
        "'IDs':[116,943,234,38793,],},}"
    )),
    (2, IMAGE, ""),
    (2, PLACES, concat!(
        "[{'precision':'zip','Latitude':37.7668,'Longitude':-122.3959,'Address':'','City':",
        "'SAN FRANCISCO','State':'CA','Zip':'94107','Country':'US',},{'precision':'zip',",
        "'Latitude':37.371991,'Longitude':-122.026020,'Address':'','City':'SUNNYVALE','State':'CA',",
        "'Zip':'94085','Country':'US',},]"
    )),
];

/// An invalid text, and how many bytes of it were read. For a scalar, these are the bytes before
/// the invalid token; for an array or an object, those with its valid items so far.
const NONE: &[(&str, usize)] = &[
    ("", 0),
    (" ", 1),
    ("nul", 0),
    ("1 x", 2),
    ("[1 2]", 3),
    ("[1,]", 2),
    ("[,1]", 1),
    ("[1", 2),
    ("[", 1),
    ("]", 0),
    ("[1]]", 3),
    ("[1, [2 3]]", 2),
    ("{\"a\":1,}", 6),
    ("{\"a\" 1}", 1),
    ("{\"a\":}", 1),
    ("{a:1}", 1),
    ("{1:1}", 1),
    ("{\"a\":1", 6),
    ("{\"a\":1]", 6),
    ("{\"a\":1,\"b\"}", 6),
    ("[1}", 2),
    ("\u{feff}1", 0),
    ("\u{a0}1", 0),
    ("[1]\u{b}", 3),
    ("01", 1),
    ("[\"\\ud834\"]", 1),
    ("// x\n1", 0),
];

fn same(rt: &impl Abort, row: &str, got: &str, want: &str) {
    assert_eq!(rt; got, want, "{row:?}");
}

/// Checks that a value is shown as in its row.
fn same_value(rt: &impl Abort, row: &str, alloc: Global, value: &Value<Global>, want: &str) {
    let mut into = String::new(alloc);
    assert!(rt; show(value, &mut into).is_ok());
    same(rt, row, into.as_str(), want);
}

#[test]
fn parse_value_by_level(rt: HostRuntime) {
    for (level, text, want) in ROWS {
        match parse_value(rt.alloc(), *level, text) {
            Ok(value) => same_value(&rt, text, rt.alloc(), &value, want),
            Err(_) => same(&rt, text, "", want),
        }
    }
}

#[test]
fn parse_value_refuses(rt: HostRuntime) {
    for (text, place) in NONE {
        match parse_value(rt.alloc(), 9, text) {
            Err(ParseFault::Invalid(error)) => assert_eq!(rt; error.offset(), *place, "{text:?}"),
            _ => assert!(rt; false, "{text:?}"),
        }
    }
}

#[test]
fn read_value_leaves_what_is_behind(rt: HostRuntime) {
    let rows = [
        (1, "[1, 2] , 3", Some(("[1,2,]", " , 3"))),
        (1, "{\"a\": 1}}", Some(("{'a':1,}", "}"))),
        (0, "1.5.2", Some(("1.5", ".2"))),
        (0, "[1]", None),
        (1, "[[1]]", None),
        (1, " [1]", None),
        (1, "[1", None),
        (2, "[]]", Some(("[]", "]"))),
    ];
    for row in rows {
        let (level, text, want) = row;
        let mut input = text;
        match (read_value(rt.alloc(), level, &mut input), want) {
            (Ok(value), Some((value_shown, rest))) => {
                same_value(&rt, text, rt.alloc(), &value, value_shown);
                same(&rt, text, input, rest);
            }
            (got, want) => assert_eq!(rt; got.is_ok(), want.is_some(), "{text:?}"),
        }
    }
}
