//! Counts as numbers, and texts as bytes.
use stream_sets::as_bstr::AsBStr;
use stream_sets::numbers::ToUsize;

#[test]
fn to_usize(rt: HostRuntime) {
    assert_eq!(rt; 255u8.to_usize(), 255);
    assert_eq!(rt; 65535u16.to_usize(), 65535);
    assert_eq!(rt; 4294967295u32.to_usize(), 4294967295);
    assert_eq!(rt; u64::MAX.to_usize(), usize::MAX);
    assert_eq!(rt; 7usize.to_usize(), 7);
}

#[test]
fn as_bstr(rt: HostRuntime) {
    assert_eq!(rt; "é".as_bstr(), [0xC3, 0xA9].as_slice());
    assert_eq!(rt; b"a".as_slice().as_bstr(), b"a".as_slice());
}
