//! The modes of errors.
use stream_errors::mode::ErrMode;
use streams::needed::Needed;

#[test]
fn map(rt: HostRuntime) {
    let incomplete = || ErrMode::Incomplete(Needed::Unknown);
    for (error, want) in [
        (ErrMode::Backtrack(1), ErrMode::Backtrack(2)),
        (ErrMode::Cut(1), ErrMode::Cut(2)),
        (incomplete(), incomplete()),
    ] {
        let got = error.map(|value: u8| value + 1);
        assert_eq!(rt; got, want, "ErrMode::map");
    }
}
