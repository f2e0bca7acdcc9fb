//! Sets of tokens, at bytes and at characters.
use std::process::Abort;
use stream_sets::as_char::AsChar;
use stream_sets::classes::{Alphanumerics, DecimalDigits, Multispaces, Spaces};
use stream_sets::sets::{ContainsToken, Pred};

/// The set has the token, or not.
fn has<T, S: ContainsToken<T> + Drop>(rt: &impl Abort, row: &str, set: S, token: T, want: bool) {
    assert_eq!(rt; set.contains_token(token), want, "{row}");
}

/// One token, and those for which a closure holds.
fn single<T: AsChar + From<u8> + Copy>(rt: &impl Abort) {
    let digits = Pred(|token: T| token.is_dec_digit());
    has(rt, "b'a' of a", b'a', T::from(b'a'), true);
    has(rt, "b'a' of b", b'a', T::from(b'b'), false);
    has(rt, "'a' of a", 'a', T::from(b'a'), true);
    has(rt, "'a' of b", 'a', T::from(b'b'), false);
    has(rt, "'é' of the byte E9", 'é', T::from(0xE9), true);
    assert_eq!(rt; digits.contains_token(T::from(b'7')), true, "digits of 7");
    assert_eq!(rt; digits.contains_token(T::from(b'/')), false, "digits of /");
}

/// Ranges of every kind.
fn ranges<T: AsChar + From<u8> + Copy>(rt: &impl Abort) {
    has(rt, "b'a'..b'c' of b", b'a'..b'c', T::from(b'b'), true);
    has(rt, "b'a'..b'c' of c", b'a'..b'c', T::from(b'c'), false);
    has(rt, "'a'..='c' of c", 'a'..='c', T::from(b'c'), true);
    has(rt, "'a'..='c' of d", 'a'..='c', T::from(b'd'), false);
    has(rt, "b'b'.. of b", b'b'.., T::from(b'b'), true);
    has(rt, "b'b'.. of a", b'b'.., T::from(b'a'), false);
    has(rt, "..'b' of a", ..'b', T::from(b'a'), true);
    has(rt, "..'b' of b", ..'b', T::from(b'b'), false);
    has(rt, "..=b'b' of b", ..=b'b', T::from(b'b'), true);
    has(rt, "..=b'b' of c", ..=b'b', T::from(b'c'), false);
    has(rt, ".. of 0", .., T::from(0), true);
}

/// Arrays, slices and tuples.
fn several<T: AsChar + From<u8> + Copy>(rt: &impl Abort) {
    has(rt, "an array of c", [b'a', b'c'], T::from(b'c'), true);
    has(rt, "an array of b", [b'a', b'c'], T::from(b'b'), false);
    has(
        rt,
        "a reference to an array of a",
        &['a', 'c'],
        T::from(b'a'),
        true,
    );
    has(rt, "a slice of c", b"ac".as_slice(), T::from(b'c'), true);
    has(
        rt,
        "an empty slice of c",
        b"".as_slice(),
        T::from(b'c'),
        false,
    );
    for (byte, want) in [(b'_', true), (b'q', true), (b'1', true), (b'2', false)] {
        let three = (b'_', 'a'..='z', [b'0', b'1']);
        assert_eq!(rt;
            three.contains_token(T::from(byte)),
            want,
            "three of {byte}"
        );
    }
    let six = (b'a', b'b', b'c', b'd', b'e', b'f');
    has(rt, "six of f", six, T::from(b'f'), true);
    has(rt, "six of g", six, T::from(b'g'), false);
    let ten = ('a', 'b', 'c', 'd', 'e', 'f', 'g', 'h', 'i', b'0'..=b'9');
    has(rt, "ten of 7", ten, T::from(b'7'), true);
    has(rt, "one of a", (b'a',), T::from(b'a'), true);
}

/// The classes of ASCII.
fn classes<T: AsChar + From<u8> + Copy>(rt: &impl Abort) {
    for (row, byte, want) in [
        ("a", b'a', [true, false, false, false]),
        ("0", b'0', [true, true, false, false]),
        ("a space", b' ', [false, false, true, true]),
        ("a tab", b'\t', [false, false, true, true]),
        ("a carriage return", b'\r', [false, false, false, true]),
        ("a line feed", b'\n', [false, false, false, true]),
        ("-", b'-', [false, false, false, false]),
        ("the byte A0", 0xA0, [false, false, false, false]),
    ] {
        let token = T::from(byte);
        let got = [
            Alphanumerics.contains_token(token),
            DecimalDigits.contains_token(token),
            Spaces.contains_token(token),
            Multispaces.contains_token(token),
        ];
        assert_eq!(rt; got, want, "{row}");
    }
}

#[test]
fn sets_of_bytes(rt: HostRuntime) {
    single::<u8>(&rt);
    ranges::<u8>(&rt);
    several::<u8>(&rt);
    classes::<u8>(&rt);
}

#[test]
fn sets_of_characters(rt: HostRuntime) {
    single::<char>(&rt);
    ranges::<char>(&rt);
    several::<char>(&rt);
    classes::<char>(&rt);
}
