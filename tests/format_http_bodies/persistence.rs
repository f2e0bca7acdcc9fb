//! Whether connections persist, by the rules of RFC 9112, section 9.3.
use format_http::heads::field_line::Field;
use format_http::persistence::persists;

/// Values of Connection fields, and whether the connection persists with versions 1.0 and 1.1.
const VALUES: &[(&[&[u8]], bool, bool)] = &[
    (&[], false, true),
    (&[b"close"], false, false),
    (&[b"Close"], false, false),
    (&[b"CLOSE"], false, false),
    (&[b"keep-alive"], true, true),
    (&[b"Keep-Alive"], true, true),
    (&[b"keep-alive, close"], false, false),
    (&[b"close, keep-alive"], false, false),
    (&[b"keep-alive", b"close"], false, false),
    (&[b"close", b"keep-alive"], false, false),
    (&[b"upgrade,\tkeep-alive ,te"], true, true),
    (&[b"TE, close"], false, false),
    (&[b",,close,"], false, false),
    (&[b" , keep-alive"], true, true),
    (&[b""], false, true),
    (&[b","], false, true),
    (&[b"upgrade", b"", b"keep-alive"], true, true),
    (&[b"closed"], false, true),
    (&[b"clos"], false, true),
    (&[b"close close"], false, true),
    (&[b"keepalive"], false, true),
    (&[b"keep-alive-not"], false, true),
    (&[b"x-close, x-keep-alive"], false, true),
    (&[b"\"close\""], false, true),
    (&[b"timeout=5, max=100"], false, true),
];

#[test]
fn persists_of_values(rt: HostRuntime) {
    for (values, old, new) in VALUES {
        let mut fields = [Field { name: b"x", value: b"close" }; 4];
        let mut at = 1;
        for value in *values {
            fields[at] = Field { name: b"CONNection", value: *value };
            at += 1;
        }
        for (major, minor, want) in [(1, 0, *old), (1, 1, *new), (1, 9, *new), (2, 0, *new)] {
            let found = persists(major, minor, fields.as_slice());
            assert!(rt; found == want, "{major}.{minor} {values:?}");
        }
        assert!(rt; !persists(0, 9, fields.as_slice()), "0.9 {values:?}");
    }
}

#[test]
fn persists_of_other_names(rt: HostRuntime) {
    for name in [b"Connections".as_slice(), b"Proxy-Connection", b"Keep-Alive", b"Connectio"] {
        let close = [Field { name, value: b"close" }];
        assert!(rt; persists(1, 1, close.as_slice()), "{name:?}");
        let kept = [Field { name, value: b"keep-alive" }];
        assert!(rt; !persists(1, 0, kept.as_slice()), "{name:?}");
    }
}
