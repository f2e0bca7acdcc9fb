//! The bounds of each form of ranges.
use std::test::Fail;
use stream_sets::range::Range;

#[test]
fn range(rt: HostRuntime) {
    for (row, range, first, last) in [
        ("3", Range::from(3), 3, Some(3)),
        ("..", Range::from(..), 0, None),
        ("2..", Range::from(2..), 2, None),
        ("..4", Range::from(..4), 0, Some(3)),
        ("..0", Range::from(..0), 0, Some(0)),
        ("..=4", Range::from(..=4), 0, Some(4)),
        ("2..5", Range::from(2..5), 2, Some(4)),
        ("0..0", Range::from(0..0), 0, Some(0)),
        ("2..=5", Range::from(2..=5), 2, Some(5)),
        ("3..=2", Range::from(3..=2), 3, Some(2)),
    ] {
        let got = (range.start_inclusive, range.end_inclusive);
        assert_eq!(rt; got, (first, last), "{row}");
    }
}

#[test]
fn ranges_print_as_ranges(rt: HostRuntime) -> Result<(), Fail> {
    for (range, text) in [
        (Range::from(1..=3), "1..=3"),
        (Range::from(1..4), "1..=3"),
        (Range::from(2..), "2.."),
        (Range::from(3), "3"),
    ] {
        assert_eq!(rt; format!(in rt.alloc(); "{range}")?.as_str(), text);
        assert_eq!(rt; format!(in rt.alloc(); "{range:?}")?.as_str(), text);
    }
    Ok(())
}
