//! Words that are repeated.
use crate::compared::{Inputs, check, is_in};
use machines::opt::Opt;
use machines::seq::Seq;
use machines::sets::Byte;
use machines::star::{SomeOf, Star};
use machines::text::Text;
use machines::times::Times;

const LETTERS: Inputs = Inputs { letters: b"ab\"", longest: 5, more: 4 };

/// Whether the text is `ab` repeated, and how often.
fn pairs(text: &[u8]) -> Option<usize> {
    for at in 0..text.len() {
        if text[at] != (if at % 2 == 0 { b'a' } else { b'b' }) {
            return None;
        }
    }
    if text.len() % 2 == 0 { Some(text.len() / 2) } else { None }
}

#[test]
fn zero_or_more(rt: HostRuntime) {
    check(&rt, &Star(Text(*b"ab")), LETTERS, |text: &[u8]| pairs(text).is_some());
    let optional = Star(Seq(Byte(b'a'), Opt(Byte(b'b'))));
    check(&rt, &optional, LETTERS, |text: &[u8]| {
        for at in 0..text.len() {
            let follows = at > 0 && text[at - 1] == b'a';
            if text[at] == b'"' || (text[at] == b'b' && !follows) {
                return false;
            }
        }
        true
    });
}

#[test]
fn one_or_more(rt: HostRuntime) {
    check(&rt, &SomeOf(Text(*b"ab")), LETTERS, |text: &[u8]| {
        matches!(pairs(text), Some(count) if count > 0)
    });
}

#[test]
fn counts_in_a_range(rt: HostRuntime) {
    let some = Times { word: Text(*b"ab"), least: 1, extra: 1 };
    check(&rt, &some, LETTERS, |text: &[u8]| matches!(pairs(text), Some(1) | Some(2)));
    let exact = Times { word: Byte(b'a'), least: 2, extra: 0 };
    check(&rt, &exact, LETTERS, |text: &[u8]| is_in(text, &[b"aa"]));
    let most = Times { word: Byte(b'a'), least: 0, extra: 2 };
    check(&rt, &most, LETTERS, |text: &[u8]| is_in(text, &[b"", b"a", b"aa"]));
    let none = Times { word: Byte(b'a'), least: 0, extra: 0 };
    check(&rt, &none, LETTERS, |text: &[u8]| is_in(text, &[b""]));
}
