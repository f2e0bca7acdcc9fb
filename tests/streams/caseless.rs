//! Comparisons without regard to the case of ASCII letters, and lengths of literals.
use std::process::Abort;
use std::test::Fail;
use stream_searches::caseless::Caseless;
use stream_searches::compare::{Compare, CompareResult};
use stream_searches::slice_len::SliceLen;
use streams::partial::Partial;
use test_support::rows::same;
use test_support::texts::OfText;

/// An input, a literal, and the result.
const ROWS: [(&'static str, &'static str, CompareResult); 13] = [
    ("HeLLo!", "hello", CompareResult::Ok(5)),
    ("hello", "HELLO", CompareResult::Ok(5)),
    ("heL", "hello", CompareResult::Incomplete),
    ("", "hello", CompareResult::Incomplete),
    ("help", "hello", CompareResult::Error),
    ("help!", "hello", CompareResult::Error),
    ("x", "", CompareResult::Ok(0)),
    ("@[`{", "@[`{", CompareResult::Ok(4)),
    ("@", "`", CompareResult::Error),
    ("[", "{", CompareResult::Error),
    ("É", "é", CompareResult::Error),
    ("é!", "é", CompareResult::Ok(2)),
    ("Aé", "aé!", CompareResult::Incomplete),
];

/// With texts and with characters.
fn with_texts<I>(rt: &impl Abort)
where
    I: OfText + Compare<Caseless<&'static str>> + Compare<Caseless<char>>,
{
    for (input, literal, want) in ROWS {
        same(
            rt,
            literal,
            input,
            I::of_text(input).compare(Caseless(literal)),
            want,
        );
    }
    for (input, literal, want) in [
        ("A", 'a', CompareResult::Ok(1)),
        ("z!", 'Z', CompareResult::Ok(1)),
        ("[", '{', CompareResult::Error),
        ("é", 'é', CompareResult::Ok(2)),
        ("É", 'é', CompareResult::Error),
        ("", 'é', CompareResult::Incomplete),
    ] {
        let got = I::of_text(input).compare(Caseless(literal));
        same(rt, "Caseless of a character", input, got, want);
    }
}

#[test]
fn caseless(rt: HostRuntime) {
    with_texts::<&str>(&rt);
    with_texts::<&[u8]>(&rt);
    with_texts::<Partial<&str>>(&rt);
    for (input, literal, want) in ROWS {
        let spelled = Caseless(literal).as_bytes();
        same(&rt, literal, input, input.as_bytes().compare(spelled), want);
    }
    let name = "Caseless";
    let got = b"Ab".as_slice().compare(Caseless(b'a'));
    same(&rt, name, "a byte", got, CompareResult::Ok(1));
    let got = b"1".as_slice().compare(Caseless(b'Q'));
    same(&rt, name, "another byte", got, CompareResult::Error);
    let got = b"Ab".as_slice().compare(Caseless(*b"aB"));
    same(&rt, name, "an array", got, CompareResult::Ok(2));
    let got = b"A".as_slice().compare(Caseless(b"aB"));
    same(&rt, name, "a beginning", got, CompareResult::Incomplete);
}

#[test]
fn slice_len(rt: HostRuntime) {
    assert_eq!(rt; b'a'.slice_len(), 1);
    assert_eq!(rt; '€'.slice_len(), 3);
    assert_eq!(rt; "é€".slice_len(), 5);
    assert_eq!(rt; [7, 8].as_slice().slice_len(), 2);
    assert_eq!(rt; b"abc".slice_len(), 3);
    assert_eq!(rt; [1u8, 2].slice_len(), 2);
    assert_eq!(rt; Caseless("é").slice_len(), 2);
}

#[test]
fn derives(rt: HostRuntime) -> Result<(), Fail> {
    let literal = Caseless("É");
    let copied = literal;
    assert_eq!(rt; literal.0, copied.0);
    assert_eq!(rt; literal.clone()?.0, copied.0);
    let shown = format!(in rt.alloc(); "{literal:?}")?;
    assert_eq!(rt; shown.as_str(), "Caseless(\"É\")");
    Ok(())
}
