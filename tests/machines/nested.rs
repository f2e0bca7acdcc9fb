//! Nested brackets.
use crate::compared::{Inputs, check, check_text};
use machines::nested::{Nested, Pair};
use machines::seq::Seq;
use machines::sets::Byte;
use machines::text::Text;

const ROUND: Pair = Pair { opener: b'(', closer: b')' };
const SQUARE: Pair = Pair { opener: b'[', closer: b']' };

/// Whether brackets are balanced and nested at most `limit` times, by removing innermost pairs.
fn is_balanced(text: &[u8], limit: usize) -> bool {
    let mut open = [0u8; 8];
    let mut depth = 0;
    for byte in text {
        match *byte {
            b'.' => {}
            b'(' | b'[' => {
                if depth == limit {
                    return false;
                }
                open[depth] = *byte;
                depth += 1;
            }
            closer => {
                let opener = if closer == b')' { b'(' } else { b'[' };
                if depth == 0 || open[depth - 1] != opener {
                    return false;
                }
                depth -= 1;
            }
        }
    }
    depth == 0
}

#[test]
fn two_kinds(rt: HostRuntime) {
    let inputs = Inputs { letters: b".()[]", longest: 4, more: 3 };
    let two = Nested { word: Byte(b'.'), first: ROUND, second: Some(SQUARE), limit: 2 };
    check(&rt, &two, inputs, |text: &[u8]| is_balanced(text, 2));
    let none = Nested { word: Byte(b'.'), first: ROUND, second: Some(SQUARE), limit: 0 };
    check(&rt, &none, inputs, |text: &[u8]| is_balanced(text, 0));
}

#[test]
fn one_kind(rt: HostRuntime) {
    let inputs = Inputs { letters: b".()", longest: 6, more: 4 };
    let machine = Nested { word: Byte(b'.'), first: ROUND, second: None, limit: 3 };
    check(&rt, &machine, inputs, |text: &[u8]| is_balanced(text, 3));
    check_text(&rt, &machine, b"([".as_slice(), Err(1));
}

#[test]
fn longer_words(rt: HostRuntime) {
    let items = Nested { word: Text(*b"ab"), first: ROUND, second: Some(SQUARE), limit: 64 };
    let machine = Seq(items, Byte(b';'));
    let rows: &[(&[u8], Result<Option<usize>, usize>)] = &[
        (b";", Ok(Some(1))),
        (b"ab(ab[abab]ab);", Ok(Some(15))),
        (b"a(", Err(1)),
        (b"(a)", Err(2)),
        (b"(ab", Ok(None)),
        (b"(ab;", Err(3)),
        (b"[(ab])", Err(4)),
    ];
    for (text, want) in rows {
        check_text(&rt, &machine, *text, *want);
    }
}

/// The kind of the bracket at a depth: no pattern that a shift by a few bits keeps.
fn is_round(depth: usize) -> bool {
    depth * depth % 7 < 3
}

#[test]
fn the_deepest(rt: HostRuntime) {
    let machine = Nested { word: Byte(b'.'), first: ROUND, second: Some(SQUARE), limit: 64 };
    let mut text = [b'.'; 129];
    for depth in 0..64usize {
        text[depth] = if is_round(depth) { b'(' } else { b'[' };
        text[128 - depth] = if is_round(depth) { b')' } else { b']' };
    }
    check_text(&rt, &machine, text.as_slice(), Ok(None));
    text[64] = b'(';
    check_text(&rt, &machine, text.as_slice(), Err(64));
    text[64] = b'.';
    text[128] = if is_round(0) { b']' } else { b')' };
    check_text(&rt, &machine, text.as_slice(), Err(128));
}
