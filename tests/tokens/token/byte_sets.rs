//! Sets of bytes as tables, compared with the same set as a list.
use stream_sets::byte_set::ByteSet;
use stream_errors::empty::EmptyError;
use stream_sets::range::Range;
use streams::partial::Partial;
use test_support::outcomes::{Kind, outcome_of};
use test_support::rows::{Modal, same};
use winnow_token::token;

/// Each of the four parsers of sets, on texts whole and cut.
#[test]
fn one_of_byte_set(rt: HostRuntime) {
    let list = b"0123456789-abcdef".as_slice();
    let set = ByteSet::from_set(&list);
    let texts = ["", "a", "g", "-9f", "a-g", "gg-", "\u{e9}a"];
    for text in texts {
        let bytes = text.as_bytes();
        let got = outcome_of::<_, u8, EmptyError, _>(&mut token::one_of(set), bytes);
        let want = outcome_of::<_, u8, EmptyError, _>(&mut token::one_of(list), bytes);
        same(&rt, "one_of", text, got, want);
        let got = outcome_of::<_, u8, EmptyError, _>(&mut token::none_of(set), bytes);
        let want = outcome_of::<_, u8, EmptyError, _>(&mut token::none_of(list), bytes);
        same(&rt, "none_of", text, got, want);
        for range in [Range::from(0..), Range::from(1..), Range::from(2..=2)] {
            let cut = Partial::new(bytes);
            let got = outcome_of::<_, _, Modal, _>(&mut token::take_while(range, set), cut);
            let want = outcome_of::<_, _, Modal, _>(&mut token::take_while(range, list), cut);
            same(&rt, "take_while", text, got, want);
            let got = outcome_of::<_, _, Modal, _>(&mut token::take_till(range, set), cut);
            let want = outcome_of::<_, _, Modal, _>(&mut token::take_till(range, list), cut);
            same(&rt, "take_till", text, got, want);
        }
    }
    let bytes = b"a-g".as_slice();
    let got = outcome_of::<_, _, Modal, _>(&mut token::take_while(0.., set), bytes);
    same(&rt, "take_while", "a-g", got, (Ok(b"a-".as_slice()), b"g".as_slice()));
    let got = outcome_of::<_, _, Modal, _>(&mut token::take_till(1.., set), bytes);
    same(&rt, "take_till", "a-g", got, (Err(Kind::Backtrack), bytes));
    let got = outcome_of::<_, _, Modal, _>(&mut token::one_of(set), bytes);
    same(&rt, "one_of", "a-g", got, (Ok(b'a'), b"-g".as_slice()));
    let got = outcome_of::<_, _, Modal, _>(&mut token::none_of(set), bytes);
    same(&rt, "none_of", "a-g", got, (Err(Kind::Backtrack), bytes));
}
