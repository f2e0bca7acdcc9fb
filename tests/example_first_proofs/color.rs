//! Colors. Which texts are colors Python's `re.fullmatch('#[0-9A-Fa-f]{6}', text)` says.
use examples::color::parse_color;

const COLORS: &[(&[u8], &[u8], &[u8], &[u8])] = &[
    (b"#a0b1c2", b"a0", b"b1", b"c2"),
    (b"#000000", b"00", b"00", b"00"),
    (b"#FFffFf", b"FF", b"ff", b"Ff"),
];

const OTHERS: &[&[u8]] = &[
    b"", b"#", b"#a0b1c", b"#a0b1c23", b"a0b1c2", b"#a0b1cg", b"# a0b1c", b"#a0b1c2\n", b"##0b1c2",
    b"#a0b1c/", b"#a0b1c:", b"#a0b1c@", b"#a0b1cG", b"#a0b1c`",
];

#[test]
fn colors_have_their_digits(rt: HostRuntime) {
    for (text, red, green, blue) in COLORS {
        match parse_color(text) {
            Ok(color) => assert_eq!(rt; color, (*red, *green, *blue), "{text:?}"),
            Err(_) => assert!(rt; false, "{text:?}"),
        }
    }
    for text in OTHERS {
        assert!(rt; parse_color(text).is_err(), "{text:?}");
    }
}
