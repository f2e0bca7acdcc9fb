//! Slices that are read as text.
use stream_sets::parse_slice::ParseSlice;

#[test]
fn parse_slice(rt: HostRuntime) {
    for (text, want) in [
        ("12", Some(12u8)),
        ("255", Some(255)),
        ("256", None),
        ("-1", None),
        ("1a", None),
        ("", None),
    ] {
        let got: Option<u8> = text.parse_slice();
        assert_eq!(rt; got, want, "parse_slice of the text {text:?}");
        let got: Option<u8> = text.as_bytes().parse_slice();
        assert_eq!(rt; got, want, "parse_slice of the bytes of {text:?}");
    }
}

/// Bytes that are not UTF-8, also next to valid text.
#[test]
fn parse_slice_of_no_text(rt: HostRuntime) {
    for (bytes, want) in [
        (b"\xC3\xA9".as_slice(), Some('é')),
        (b"a".as_slice(), Some('a')),
        (b"\xC3".as_slice(), None),
        (b"\xA9".as_slice(), None),
        (b"\xFF".as_slice(), None),
        (b"a\xFF".as_slice(), None),
        (b"".as_slice(), None),
    ] {
        let got: Option<char> = bytes.parse_slice();
        assert_eq!(rt; got, want, "parse_slice of {bytes:?}");
    }
    let got: Option<u8> = b"12\xFF".as_slice().parse_slice();
    assert_eq!(rt;
        got,
        None,
        "parse_slice of digits and a byte that is no text"
    );
}
