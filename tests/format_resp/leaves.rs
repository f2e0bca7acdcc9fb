//! The parts of replies: lines, sizes and bytes, whole and cut.
use crate::replies::same;
use format_resp::leaves::{read_data, read_line, read_size};
use winnow::error::ErrMode;
use winnow::stream::{Partial, StreamIsPartial};

#[test]
fn read_line_of_bytes(rt: HostRuntime) {
    let rows: [(&[u8], Option<&[u8]>, usize); 7] = [
        (b"OK\r\n+", Some(b"OK".as_slice()), 1),
        (b"\r\n", Some(b"".as_slice()), 0),
        (b"\0\xff\r\n", Some(b"\0\xff".as_slice()), 0),
        (b"O\nK\r\n", None, 0),
        (b"O\rK\r\n", None, 0),
        (b"OK", None, 0),
        (b"OK\r", None, 0),
    ];
    for (text, want, behind) in rows {
        let mut input = Partial::new(text);
        input.complete();
        let line = read_line(&mut input).ok();
        same(&rt, text, line, want);
        if want.is_some() {
            same(&rt, text, input.as_inner().len(), behind);
        }
    }
    for text in [b"".as_slice(), b"OK".as_slice(), b"OK\r".as_slice()] {
        let told = read_line(&mut Partial::new(text));
        same(&rt, text, matches!(told, Err(ErrMode::Incomplete(_))), true);
    }
}

#[test]
fn read_size_of_bytes(rt: HostRuntime) {
    let rows: [(&[u8], Option<Option<usize>>); 12] = [
        (b"0\r\n", Some(Some(0))),
        (b"12\r\n:", Some(Some(12))),
        (b"03\r\n", Some(Some(3))),
        (b"+3\r\n", None),
        (b"-01\r\n", None),
        (b"9223372036854775807\r\n", Some(Some(9223372036854775807))),
        (b"-1\r\n", Some(None)),
        (b"-2\r\n", None),
        (b"9223372036854775808\r\n", None),
        (b"1x\r\n", None),
        (b"?\r\n", None),
        (b"\r\n", None),
    ];
    for (text, want) in rows {
        same(&rt, text, read_size(&mut Partial::new(text)).ok(), want);
    }
    let told = read_size(&mut Partial::new(b"1".as_slice()));
    same(&rt, b"1", matches!(told, Err(ErrMode::Incomplete(_))), true);
}

#[test]
fn read_data_of_bytes(rt: HostRuntime) {
    let rows: [(&[u8], usize, Option<&[u8]>); 6] = [
        (b"foo\r\n", 3, Some(b"foo".as_slice())),
        (b"\r\n\r\n+", 2, Some(b"\r\n".as_slice())),
        (b"\r\n", 0, Some(b"".as_slice())),
        (b"foo\r\n", 2, None),
        (b"foo\r\n", 4, None),
        (b"foo\n\r", 3, None),
    ];
    for (text, size, want) in rows {
        let mut input = Partial::new(text);
        input.complete();
        same(&rt, text, read_data(size, &mut input).ok(), want);
    }
    for text in [b"".as_slice(), b"foo".as_slice(), b"foo\r".as_slice()] {
        let told = read_data(3, &mut Partial::new(text));
        same(&rt, text, matches!(told, Err(ErrMode::Incomplete(_))), true);
    }
}
