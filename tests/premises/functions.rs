//! A function with an argument as a rule.
use example_callers::functions::name_and_topic;

#[test]
fn words_follow_their_marks(rt: HostRuntime) {
    let mut input = b"@ann #rust, @bob #c".as_slice();
    let words = (b"ann".as_slice(), b"rust".as_slice());
    assert_eq!(rt; name_and_topic(&mut input), Ok(words));
    assert_eq!(rt; input, b", @bob #c".as_slice());
}

#[test]
fn marks_that_are_missing_or_exchanged(rt: HostRuntime) {
    for text in [
        b"#ann @rust".as_slice(),
        b"@ann @rust".as_slice(),
        b"@ann#rust".as_slice(),
        b"@ann #".as_slice(),
        b"@ #rust".as_slice(),
        b"".as_slice(),
    ] {
        let mut input = text;
        assert!(rt; name_and_topic(&mut input).is_err());
    }
}
