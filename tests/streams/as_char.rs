//! The classes of bytes and characters, and of references to them.
use std::process::Abort;
use stream_sets::as_char::AsChar;
use test_support::rows::same;

/// Whether a token is a letter, a letter or a digit, a digit, a hexadecimal and an octal one, a
/// space, a line feed.
fn classes<T: AsChar + Copy>(token: T) -> [bool; 7] {
    [
        token.is_alpha(),
        token.is_alphanum(),
        token.is_dec_digit(),
        token.is_hex_digit(),
        token.is_oct_digit(),
        token.is_space(),
        token.is_newline(),
    ]
}

#[test]
fn as_char(rt: HostRuntime) {
    let space = [false, false, false, false, false, true, false];
    for (row, byte, want) in [
        ("7", b'7', [false, true, true, true, true, false, false]),
        ("8", b'8', [false, true, true, true, false, false, false]),
        ("f", b'f', [true, true, false, true, false, false, false]),
        ("G", b'G', [true, true, false, false, false, false, false]),
        ("a space", b' ', space),
        ("a tab", b'\t', space),
        (
            "a line feed",
            b'\n',
            [false, false, false, false, false, false, true],
        ),
        ("a carriage return", b'\r', [false; 7]),
        ("_", b'_', [false; 7]),
        ("the byte E9", 0xE9, [false; 7]),
    ] {
        let character = char::from(byte);
        same(&rt, "a byte", row, classes(byte), want);
        same(&rt, "a reference to a byte", row, classes(&byte), want);
        same(&rt, "a character", row, classes(character), want);
        same(
            &rt,
            "a reference to a character",
            row,
            classes(&character),
            want,
        );
        same(&rt, "as_char", row, byte.as_char(), character);
    }
    same(&rt, "as_char", "the byte E9", 0xE9u8.as_char(), 'é');
    same(
        &rt,
        "as_char",
        "a reference to the byte E9",
        (&0xE9u8).as_char(),
        'é',
    );
    same(&rt, "as_char", "a reference to é", (&'é').as_char(), 'é');
}
