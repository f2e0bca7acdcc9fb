//! Sizes, their values and the remaining input.
use std::process::Abort;
use test_support::refusing::Refusing;
use example_formulas::sizes::read_size;
use winnow::error::ParserError;

/// A size, its value, and the rest of the input. The values are computed with Python, with 1024 and
/// 1048576 for the units.
const ROWS: &[(&str, u32, &str)] = &[
    ("7", 7, ""),
    ("0", 0, ""),
    ("2k", 2048, ""),
    ("1m", 1048576, ""),
    ("1kk", 1048576, ""),
    ("2k+3*4;", 2060, ";"),
    ("1+2*3", 7, ""),
    ("2*3+4", 10, ""),
    ("2*3k+1", 6145, ""),
    ("1+2+3", 6, ""),
    ("4294967295", 4294967295, ""),
    ("4294967294+1", 4294967295, ""),
    ("4095m", 4293918720, ""),
    ("65535*65537", 4294967295, ""),
    ("7 k", 7, " k"),
    ("12k)", 12288, ")"),
    // a leading '0' is a complete number
    ("07", 0, "7"),
];

/// Texts that do not start with a size, or whose size does not fit in 32 bits.
const REFUSED: &[&str] = &[
    "", "k", "+1", "1+", "1+k", "1**2", "4294967296", "4096m", "4294967295+1", "65536*65536",
];

#[test]
fn read_size_of_sizes(rt: HostRuntime) {
    for (text, value, left) in ROWS {
        let mut input = text.as_bytes();
        assert_eq!(rt; read_size(rt.alloc(), &mut input), Ok(*value), "{text}");
        assert_eq!(rt; input, left.as_bytes(), "{text}");
    }
    for text in REFUSED {
        let mut input = text.as_bytes();
        let answer = read_size(rt.alloc(), &mut input);
        assert!(rt; matches!(answer, Err(e) if !ParserError::<&[u8]>::is_memory(&e)), "{text}");
    }
}

/// An operator allocates, and a failed allocation has an error of its own.
#[test]
fn read_size_wants_memory(rt: HostRuntime) {
    let heap: Refusing<std::alloc::Global> = Refusing::once(rt.alloc(), 0);
    let answer = read_size(&heap, &mut b"1+2".as_slice());
    assert!(rt; heap.met());
    assert!(rt; matches!(answer, Err(e) if ParserError::<&[u8]>::is_memory(&e)));
    let heap: Refusing<std::alloc::Global> = Refusing::once(rt.alloc(), 0);
    assert_eq!(rt; read_size(&heap, &mut b"12k".as_slice()), Ok(12288));
    assert!(rt; !heap.met());
}
