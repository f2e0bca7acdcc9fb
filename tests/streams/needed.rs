//! How much more is needed.
use streams::needed::Needed;

#[test]
fn needed(rt: HostRuntime) {
    assert_eq!(rt; Needed::new(0), Needed::Unknown);
    assert_eq!(rt; Needed::new(1) == Needed::new(2), false);
    assert_eq!(rt; Needed::new(1) == Needed::Unknown, false);
}
