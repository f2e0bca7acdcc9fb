//! Searches of a literal, or of one of a few.
use std::process::Abort;
use stream_searches::find::FindSlice;
use streams::partial::Partial;
use test_support::rows::same;
use test_support::texts::OfText;

/// Returns the first range of `sought` in the input.
fn found<T, I: FindSlice<T>>(input: I, sought: T) -> Option<(usize, usize)> {
    let range = input.find_slice(sought)?;
    Some((range.start, range.end))
}

/// An input, a text, and its first occurrence.
const ROWS: [(&'static str, &'static str, Option<(usize, usize)>); 13] = [
    ("aaab", "aab", Some((1, 4))),
    ("abab", "ab", Some((0, 2))),
    ("xab", "ab", Some((1, 3))),
    ("aéb", "éb", Some((1, 4))),
    ("ba", "ab", None),
    ("a", "ab", None),
    ("ab", "", Some((0, 0))),
    ("", "", Some((0, 0))),
    ("aaaaaaaab", "ab", Some((7, 9))),
    ("a-a-a-a-a-", "ab", None),
    (
        "aaaaaaaaaaaaaaaaaaaaaaaaaaaaaaaaaaaaaaaaaaaaab",
        "aaaaaaaaaaaaaaaaaaaaaaaaaaaaaaaaaaaaaaab",
        Some((6, 46)),
    ),
    (
        "aaaaaaaaaaaaaaaaaaaaaaaaaaaaaaaaaaaaaaaaaaaaaaaaaa",
        "aaaaaaaaaaaaaaaaaaaaaaaaaaaaaaaaaaaaaaab",
        None,
    ),
    (
        "aaaaaaaaaaaaaaaaaaaaaaaaaaaaaaaaacaaaaaaaaaaaaaaaaaaaaaaaaaaaaaaaaaaaaaaab",
        "aaaaaaaaaaaaaaaaaaaaaaaaaaaaaaaaaaaaaaab",
        Some((34, 74)),
    ),
];

/// Texts and characters.
fn texts<I: OfText + FindSlice<&'static str> + FindSlice<char>>(rt: &impl Abort) {
    for (input, text, want) in ROWS {
        same(rt, text, input, found(I::of_text(input), text), want);
    }
    for (input, character, want) in [
        ("aé€", 'é', Some((1, 3))),
        ("aé€", '€', Some((3, 6))),
        ("aé€", 'b', None),
        ("", 'b', None),
    ] {
        same(
            rt,
            "a character",
            input,
            found(I::of_text(input), character),
            want,
        );
    }
}

/// One of one to three characters.
fn one_of_characters<I>(rt: &impl Abort)
where
    I: OfText + FindSlice<(char,)> + FindSlice<(char, char)> + FindSlice<(char, char, char)>,
{
    for (input, character, want) in [
        ("aé€", 'é', Some((1, 3))),
        ("aé€", '€', Some((3, 6))),
        ("aé€", 'b', None),
        ("", 'b', None),
    ] {
        same(
            rt,
            "one of one",
            input,
            found(I::of_text(input), (character,)),
            want,
        );
    }
    for (input, second, third, want) in [
        ("aè€", 'é', '€', Some((3, 6))),
        ("aè€", 'è', '€', Some((1, 3))),
        ("aè€", 'é', 'ê', None),
        ("aè€", 'x', 'y', None),
        ("aè€;,", ',', ';', Some((6, 7))),
        ("aè€,;", ',', ';', Some((6, 7))),
        ("aè;€", '€', ';', Some((3, 4))),
        ("aè€", ';', '€', Some((3, 6))),
        ("\u{7f}\u{80}", '\u{80}', '\u{81}', Some((1, 3))),
        ("\u{80}\u{7f}", '\u{7f}', ',', Some((2, 3))),
    ] {
        same(
            rt,
            "one of two",
            input,
            found(I::of_text(input), (second, third)),
            want,
        );
        let got = found(I::of_text(input), ('x', second, third));
        same(rt, "one of three", input, got, want);
    }
}

#[test]
fn find(rt: HostRuntime) {
    texts::<&str>(&rt);
    texts::<&[u8]>(&rt);
    texts::<Partial<&str>>(&rt);
    one_of_characters::<&str>(&rt);
    one_of_characters::<&[u8]>(&rt);
}

#[test]
fn find_bytes(rt: HostRuntime) {
    for (input, text, want) in ROWS {
        same(
            &rt,
            text,
            input,
            found(input.as_bytes(), text.as_bytes()),
            want,
        );
    }
    let input = b"a,b;".as_slice();
    assert_eq!(rt; found(input, b';'), Some((3, 4)));
    assert_eq!(rt; found(input, (b'?',)), None);
    assert_eq!(rt; found(input, (b';', b',')), Some((1, 2)));
    assert_eq!(rt; found(input, (b';', b'b', b'?')), Some((2, 3)));
    assert_eq!(rt; found(input, (b',', b',')), Some((1, 2)));
}
