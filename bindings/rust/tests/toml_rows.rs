//! Tables of TOML documents. The expected values are those of Python's tomllib, and of the examples in
//! the standard.
use pergidau::toml::{
    self, Clock, Date, DateTime, Error, Expected, Item, Node, Reason, Time, Value,
};

/// Formats the contents of a document: tables in braces, arrays in brackets.
fn said(item: Item<'_>) -> String {
    let joined = |parts: Vec<String>| parts.join(" ");
    match item.value() {
        Value::Table => {
            let entries = item.entries().map(|(name, it)| format!("{name}:{}", said(it)));
            format!("{{{}}}", joined(entries.collect()))
        }
        Value::Array => format!("[{}]", joined(item.elements().map(said).collect())),
        Value::String(text) => format!("{text:?}"),
        Value::Integer(number) => number.to_string(),
        Value::Float(text) => format!("~{text}"),
        Value::Boolean(word) => word.to_string(),
        other => format!("{other:?}"),
    }
}

fn read(text: &str) -> Result<String, Error> {
    let (mut bytes, mut nodes) = ([0; 64], [Node::default(); 32]);
    toml::parse(text, 8, &mut bytes, &mut nodes).map(|it| said(it.root()))
}

#[test]
fn documents_say_what_tomllib_reads() {
    let rows = [
        ("", "{}"),
        ("a = 1", "{a:1}"),
        ("\"a b\" = 'c:\\d'\r\n\"\" = \"\\u00e9\\n\"\n", "{a b:\"c:\\\\d\" :\"é\\n\"}"),
        ("n = -9223372036854775808\nh = 0xff\nu = 1_000\n", "{n:-9223372036854775808 h:255 u:1000}"),
        ("f = 1_0.5e+3\ni = -inf\nt = true\ng = false\n", "{f:~10.5e+3 i:~-inf t:true g:false}"),
        ("a = [1, [2, 'x'], {b = 3, c.d = 4}, []]", "{a:[1 [2 \"x\"] {b:3 c:{d:4}} []]}"),
        ("[a.b]\nc = 1\n[d]\n[a]\ne = 2\n", "{a:{b:{c:1} e:2} d:{}}"),
        (
            "[[p]]\nn = 1\n[p.q]\nx = 2\n[[p]]\nn = 3\n[[p.r]]\n[[p.r]]\n",
            "{p:[{n:1 q:{x:2}} {n:3 r:[{} {}]}]}",
        ),
    ];
    for (text, wanted) in rows {
        assert_eq!(read(text).as_deref(), Ok(wanted), "{text}");
    }
}

#[test]
fn values_are_of_their_kinds() {
    let text = "d = 1979-05-27T07:32:00.999-08:00\nl = 1979-05-27 00:32:00\nn = 1979-05-27\n\
                t = 23:59:60.1\ns = 'x'\ni = 7\nb = true\nf = -1.5\n[k]\n";
    let (mut bytes, mut nodes) = ([0; 64], [Node::default(); 32]);
    let document = toml::parse(text, 1, &mut bytes, &mut nodes).unwrap();
    let root = document.root();
    let get = |name| root.get(name).unwrap();
    let date = Date { year: 1979, month: 5, day: 27 };
    let time = |hour, minute, second, fraction| Time { hour, minute, second, fraction };
    assert_eq!(get("d").value(), Value::OffsetDateTime(date, time(7, 32, 0, "999"), -480));
    assert_eq!(get("l").value(), Value::LocalDateTime(date, time(0, 32, 0, "")));
    assert_eq!(get("n").value(), Value::LocalDate(date));
    assert_eq!(get("t").value(), Value::LocalTime(time(23, 59, 60, "1")));
    assert_eq!(get("s").as_str(), Some("x"));
    assert_eq!(get("i").as_i64(), Some(7));
    assert_eq!(get("b").as_bool(), Some(true));
    assert_eq!(get("f").as_f64(), Some(-1.5));
    assert!(get("k").is_table() && !get("k").is_array() && get("k").children().next().is_none());
    assert!(root.name().is_none() && root.get("x").is_none() && get("s").as_i64().is_none());
    assert_eq!(document.nodes().len(), 10);
    assert_eq!(format!("{:?}", get("i")), "Item { name: Some(\"i\"), value: Integer(7) }");
}

#[test]
fn elements_have_no_names() {
    let (mut bytes, mut nodes) = ([0; 8], [Node::default(); 8]);
    let document = toml::parse("a = [1, [2], {b = 3}]", 2, &mut bytes, &mut nodes).unwrap();
    let array = document.root().get("a").unwrap();
    assert_eq!(array.name(), Some("a"));
    assert!(array.elements().all(|it| it.name().is_none()));
    assert_eq!((array.elements().count(), array.entries().count()), (3, 0));
}

#[test]
fn errors_say_where_and_why() {
    let rows = [
        ("a = \"é\"\nb 2\n", "expected `.` or `=`", "line 2, column 3"),
        ("= 2", "expected a key or a table", "line 1, column 1"),
        ("a = ", "expected a value", "line 1, column 5"),
        ("[]", "expected the name of a table", "line 1, column 2"),
        ("[a", "expected `.` or `]`", "line 1, column 3"),
        ("\u{feff}", "expected no byte order mark", "line 1, column 1"),
        ("a = 1\na = 2\nb 3", "expected `.` or `=`", "line 3, column 3"),
        ("a = 1 b = 2", "expected the end of the line", "line 1, column 7"),
        ("a = 1\na = 2\n", "key is already defined", "line 2, column 1"),
        ("a = 1\na.b = 2\n", "key is not a table", "line 2, column 1"),
        ("a = {}\n[a.b]", "table cannot be extended", "line 2, column 1"),
        ("[a]\n[[a]]\n", "key is not an array of tables", "line 2, column 1"),
    ];
    for (text, wanted, place) in rows {
        let error = read(text).unwrap_err();
        let at = error.offset().unwrap();
        assert_eq!(error.to_string(), format!("{wanted} at offset {at}"), "{text}");
        assert_eq!(error.position(text).unwrap().to_string(), place, "{text}");
    }
    let expected = Expected::EqualsSign;
    assert_eq!(read("a 1"), Err(Error::Unexpected { offset: 2, expected, unclosed: None }));
    let error = read("a = [\n 1,\n x]").unwrap_err();
    assert_eq!(error.to_string(), "expected a value or `]` at offset 11, unclosed from offset 4");
    let (expected, unclosed) = (Expected::BasicString, Some(0));
    assert_eq!(read("\"a"), Err(Error::Unexpected { offset: 2, expected, unclosed }));
    assert!(matches!(read("a=1\na=1"), Err(Error::Invalid(4, Reason::Defined))));
}

#[test]
fn buffers_that_are_too_small_are_named() {
    let (mut bytes, mut nodes) = ([0; 5], [Node::default(); 2]);
    let small = toml::parse("ab = 'cde'", 0, &mut bytes, &mut nodes[..1]).unwrap_err();
    assert_eq!(small.to_string(), "buffer too small: 2 entries and 5 bytes required");
    assert!(toml::parse("ab = 'cde'", 0, &mut bytes, &mut nodes).is_ok());
    let deep = toml::parse("a = 1\nb.c = 2", 0, &mut bytes, &mut nodes).unwrap_err();
    assert!(matches!(deep, Error::Invalid(6, Reason::TooDeep)));
    let deep = toml::parse("a = 1", pergidau::MAX_DEPTH + 1, &mut bytes, &mut nodes).unwrap_err();
    assert_eq!(deep, Error::Other(pergidau::Error::MaxDepthTooLarge));
}

/// The buffers of an owned document grow: the root and 99 entries need more than the first ones.
#[test]
fn owned_documents_grow() {
    let text: String = (0..99).map(|number| format!("k{number} = {number}\n")).collect();
    let document = toml::OwnedDocument::parse(&text, 0).unwrap();
    assert_eq!(document.root().get("k98").and_then(|it| it.as_i64()), Some(98));
    assert_eq!(document.document().nodes().len(), 100);
    assert_eq!(toml::OwnedDocument::parse("a = 1 2", 0).unwrap_err().offset(), Some(6));
    let text: String = (0..99).map(|number| format!("[s{number}]\nk = {number}\n")).collect();
    let document = pergidau::pairs::OwnedDocument::parse(text.as_bytes()).unwrap();
    assert_eq!(document.sections().map(|it| it.pairs().len()).sum::<usize>(), 99);
}

/// The expected parts are those of Python's tomllib; the digits after the ninth are truncated.
#[test]
fn date_times_are_numbers() {
    let date = Some(Date { year: 1979, month: 5, day: 27 });
    let clock = |hour, minute, nanosecond| Some(Clock { hour, minute, second: 0, nanosecond });
    let rows = [
        ("1979-05-27T00:32:00.999999-07:00", date, clock(0, 32, 999_999_000), Some(-420)),
        ("1979-05-27 07:32:00Z", date, clock(7, 32, 0), Some(0)),
        ("1979-05-27T07:32:00.0123456789999", date, clock(7, 32, 12_345_678), None),
        ("1979-05-27", date, None, None),
        ("07:32:00.5", None, clock(7, 32, 500_000_000), None),
    ];
    for (text, date, time, offset) in rows {
        let wanted = DateTime { date, time, offset };
        assert_eq!(DateTime::parse(text), Ok(wanted), "{text}");
        let document = toml::OwnedDocument::parse(&format!("a = {text}"), 0).unwrap();
        let item = document.root().get("a").unwrap();
        assert_eq!(item.as_date_time(), Some(wanted), "{text}");
    }
    for text in ["", "1979-02-29", "24:00:00", "07:32:00Z", "1979-05-27T"] {
        assert_eq!(DateTime::parse(text), Err(pergidau::Error::Invalid(None)), "{text}");
    }
    let document = toml::OwnedDocument::parse("a = '07:32:00'\nb = 1.5e3\n", 0).unwrap();
    assert_eq!(document.root().get("a").and_then(|it| it.as_date_time()), None);
    assert_eq!(document.root().get("b").and_then(|it| it.as_f64()), Some(1500.0));
}

#[test]
fn paths_find_what_the_document_has() {
    let text = "a = 1\n\"\" = 2\n[b]\nc = [3, {d = 4}]\n[b.e.f]\ng = 5\n\"a.b\" = 7\n";
    let document = toml::OwnedDocument::parse(text, 8).unwrap();
    let find = |item: Item<'_>, names: &[&str]| {
        let names: Vec<_> = names.iter().map(|&name| name.into()).collect();
        item.get_path(&names).map(|it| it.as_i64())
    };
    let root = document.root();
    assert_eq!(find(root, &["a"]), Some(Some(1)));
    assert_eq!(find(root, &[""]), Some(Some(2)));
    assert_eq!(find(root, &["b", "e", "f", "g"]), Some(Some(5)));
    assert_eq!(find(root, &["b", "e", "f", "a.b"]), Some(Some(7)));
    assert_eq!(find(root, &["b", "c"]), Some(None));
    assert!(find(root, &[]).is_some());
    let below = root.get("b").unwrap();
    assert_eq!(find(below, &["e", "f", "g"]), Some(Some(5)));
    for names in [&["A"][..], &["b", ""], &["b.e"], &["b", "c", ""], &["b", "c", "d"], &["a", "a"]] {
        assert_eq!(find(root, names), None, "{names:?}");
    }
    assert_eq!(find(below, &["a"]), None);
}
