//! The examples, by rows that were worked by hand; and the law.
use machines::examples::{frame_len, line_len, list_len};
use machines::laws::results_exclude_each_other;
use machines::sets::Byte;

#[test]
fn frames(rt: HostRuntime) {
    let rows: &[(&[u8], Result<Option<usize>, usize>)] = &[
        (b"", Ok(None)),
        (b"0:,", Ok(Some(3))),
        (b"5:hello,rest", Ok(Some(8))),
        (b"12:hello world!,", Ok(Some(16))),
        (b"5:hel", Ok(None)),
        (b"5:hello", Ok(None)),
        (b"5:hello.", Err(7)),
        (b"5,", Err(1)),
        (b":", Err(0)),
        (b"4096:", Ok(None)),
        (b"4097:", Err(3)),
        (b"9999:", Err(3)),
        (b"40960:", Err(4)),
    ];
    for (bytes, want) in rows {
        assert_eq!(rt; frame_len(*bytes), *want, "{bytes:?}");
    }
}

#[test]
fn lines(rt: HostRuntime) {
    let rows: &[(&[u8], Result<Option<usize>, usize>)] = &[
        (b"", Ok(None)),
        (b"\n", Ok(Some(1))),
        (b"a,b\nc\n", Ok(Some(4))),
        (b"a,\"b\nc\"\nd\n", Ok(Some(8))),
        (b"\"\"\"\n\"\n", Ok(Some(6))),
        (b"a,\"b\n", Ok(None)),
    ];
    for (bytes, want) in rows {
        assert_eq!(rt; line_len(*bytes), *want, "{bytes:?}");
    }
}

#[test]
fn lists(rt: HostRuntime) {
    let rows: &[(&[u8], Result<Option<usize>, usize>)] = &[
        (b"list()", Ok(Some(6))),
        (b"list(.[.].).", Ok(Some(11))),
        (b"list([", Ok(None)),
        (b"list([)", Err(6)),
        (b"list.", Err(4)),
        (b"last()", Err(1)),
        (b"list((((((((", Ok(None)),
        (b"list(((((((((", Err(12)),
    ];
    for (bytes, want) in rows {
        assert_eq!(rt; list_len(*bytes), *want, "{bytes:?}");
    }
}

#[test]
fn the_law(_rt: HostRuntime) {
    results_exclude_each_other::<Byte>();
}
