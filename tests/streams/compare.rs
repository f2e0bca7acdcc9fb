//! Comparisons of a stream with a literal.
use std::process::Abort;
use stream_searches::compare::{Compare, CompareResult};
use streams::partial::Partial;
use streams::token_slice::TokenSlice;
use test_support::rows::same;
use test_support::texts::OfText;

/// With texts and with characters.
fn with_texts<I: OfText + Compare<&'static str> + Compare<char>>(rt: &impl Abort) {
    for (input, literal, want) in [
        ("abc", "ab", CompareResult::Ok(2)),
        ("é!", "é", CompareResult::Ok(2)),
        ("é", "é!", CompareResult::Incomplete),
        ("", "é", CompareResult::Incomplete),
        ("è", "é", CompareResult::Error),
        ("π", "-", CompareResult::Error),
        ("π3.14", "π", CompareResult::Ok(2)),
        ("x", "", CompareResult::Ok(0)),
    ] {
        same(rt, literal, input, I::of_text(input).compare(literal), want);
    }
    for (input, literal, want) in [
        ("é", 'é', CompareResult::Ok(2)),
        ("", 'é', CompareResult::Incomplete),
        ("è", 'é', CompareResult::Error),
    ] {
        same(
            rt,
            "a character",
            input,
            I::of_text(input).compare(literal),
            want,
        );
    }
}

#[test]
fn compare(rt: HostRuntime) {
    with_texts::<&str>(&rt);
    with_texts::<&[u8]>(&rt);
    with_texts::<Partial<&str>>(&rt);
}

#[test]
fn compare_of_bytes(rt: HostRuntime) {
    for (input, literal, want) in [
        ("abc", "ab", CompareResult::Ok(2)),
        ("ab", "ab", CompareResult::Ok(2)),
        ("a", "ab", CompareResult::Incomplete),
        ("", "ab", CompareResult::Incomplete),
        ("b", "ab", CompareResult::Error),
        ("ac", "ab", CompareResult::Error),
        ("acd", "ab", CompareResult::Error),
        ("cb", "ab", CompareResult::Error),
        ("0123456789", "012345678", CompareResult::Ok(9)),
        ("01234567x9", "012345678", CompareResult::Error),
        ("x", "", CompareResult::Ok(0)),
        ("", "", CompareResult::Ok(0)),
    ] {
        let got = input.as_bytes().compare(literal.as_bytes());
        same(&rt, literal, input, got, want);
    }
    for (input, literal, want) in [
        ("ab", b'a', CompareResult::Ok(1)),
        ("ab", b'b', CompareResult::Error),
        ("", b'a', CompareResult::Incomplete),
    ] {
        same(
            &rt,
            "a byte",
            input,
            input.as_bytes().compare(literal),
            want,
        );
    }
    let got = b"ab".as_slice().compare(*b"ab");
    same(&rt, "an array", "ab", got, CompareResult::Ok(2));
    let got = b"ac".as_slice().compare(*b"ab");
    same(&rt, "an array", "ac", got, CompareResult::Error);
    let got = b"0123456789".as_slice().compare(*b"012345678");
    same(&rt, "a long array", "all", got, CompareResult::Ok(9));
    let got = b"01234567x9".as_slice().compare(*b"012345678");
    same(&rt, "a long array", "another", got, CompareResult::Error);
    let got = b"a".as_slice().compare(b"ab");
    same(
        &rt,
        "a reference to an array",
        "a",
        got,
        CompareResult::Incomplete,
    );
    let got = [0xC3u8].as_slice().compare('é');
    same(&rt, "é", "its first byte", got, CompareResult::Incomplete);
}

#[test]
fn compare_of_tokens(rt: HostRuntime) {
    let input = TokenSlice::new(&[7, 8]);
    for (row, literal, want) in [
        ("7, 8", [7, 8].as_slice(), CompareResult::Ok(2)),
        ("7", [7].as_slice(), CompareResult::Ok(1)),
        ("none", [].as_slice(), CompareResult::Ok(0)),
        ("7, 8, 9", [7, 8, 9].as_slice(), CompareResult::Incomplete),
        ("8", [8].as_slice(), CompareResult::Error),
        ("7, 9, 8", [7, 9, 8].as_slice(), CompareResult::Error),
    ] {
        same(&rt, "a list", row, input.compare(literal), want);
    }
    same(&rt, "an item", "7", input.compare(7), CompareResult::Ok(1));
    same(&rt, "an item", "8", input.compare(8), CompareResult::Error);
}
