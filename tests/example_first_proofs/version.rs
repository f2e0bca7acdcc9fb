//! Versions: those that semver.org lists as valid and as invalid, without build metadata, and with
//! numbers that a `u64` holds.
use examples::version::parse_version;

type Words = Option<&'static [&'static [u8]]>;

const VALID: &[(&[u8], (u64, u64, u64), Words)] = &[
    (b"0.0.4", (0, 0, 4), None),
    (b"1.2.3", (1, 2, 3), None),
    (b"10.20.30", (10, 20, 30), None),
    (b"1.0.0-alpha", (1, 0, 0), Some(&[b"alpha"])),
    (b"1.0.0-alpha.beta.1", (1, 0, 0), Some(&[b"alpha", b"beta", b"1"])),
    (b"1.2.3-rc.1", (1, 2, 3), Some(&[b"rc", b"1"])),
    (b"1.0.0-0A.is.legal", (1, 0, 0), Some(&[b"0A", b"is", b"legal"])),
    (b"1.2.3----RC-SNAPSHOT.12.9.1--.12", (1, 2, 3), Some(&[b"---RC-SNAPSHOT", b"12", b"9", b"1--", b"12"])),
    (b"18446744073709551615.0.0", (u64::MAX, 0, 0), None),
];

const INVALID: &[&[u8]] = &[
    b"",
    b"1",
    b"1.2",
    b"alpha",
    b"alpha.1",
    b"01.1.1",
    b"1.01.1",
    b"1.1.01",
    b"1.2.3.DEV",
    b"1.2-SNAPSHOT",
    b"1.0.0-alpha_beta",
    b"1.0.0-alpha..",
    b"1.0.0-alpha..1",
    b"1.2.3-",
    b"+justmeta",
    b"-1.0.3-gamma",
    b"18446744073709551616.0.0",
];

#[test]
fn versions_have_their_numbers_and_words(rt: HostRuntime) {
    for (text, want, want_words) in VALID {
        match (parse_version(rt.alloc(), text), want_words) {
            (Ok((numbers, None)), None) => assert_eq!(rt; numbers, *want, "{text:?}"),
            (Ok((numbers, Some(words))), Some(expected)) => {
                assert_eq!(rt; numbers, *want, "{text:?}");
                assert_eq!(rt; words.len(), expected.len(), "{text:?}");
                for (at, word) in words.iter().enumerate() {
                    assert_eq!(rt; *word, expected[at], "{text:?}");
                }
            }
            _ => assert!(rt; false, "{text:?}"),
        }
    }
}

#[test]
fn other_texts_are_no_versions(rt: HostRuntime) {
    for text in INVALID {
        assert!(rt; parse_version(rt.alloc(), text).is_err(), "{text:?}");
    }
}
