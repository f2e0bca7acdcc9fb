//! Bytes, texts, sequences and choices.
use crate::compared::{Inputs, check, is_in};
use machines::alt::Alt;
use machines::examples::{NotQuote, Plain};
use machines::opt::Opt;
use machines::seq::Seq;
use machines::sets::{Byte, OneOf, Run};
use machines::text::Text;

const LETTERS: Inputs = Inputs { letters: b"ab\"", longest: 4, more: 4 };

#[test]
fn a_byte(rt: HostRuntime) {
    check(&rt, &Byte(b'a'), LETTERS, |text: &[u8]| is_in(text, &[b"a"]));
}

#[test]
fn one_of_a_set(rt: HostRuntime) {
    check(&rt, &OneOf(NotQuote), LETTERS, |text: &[u8]| text.len() == 1 && text[0] != b'"');
}

fn has_no_quote(text: &[u8]) -> bool {
    for byte in text {
        if *byte == b'"' {
            return false;
        }
    }
    true
}

#[test]
fn a_run(rt: HostRuntime) {
    check(&rt, &Run(NotQuote), LETTERS, has_no_quote);
}

#[test]
fn a_text(rt: HostRuntime) {
    check(&rt, &Text(*b"abb"), LETTERS, |text: &[u8]| is_in(text, &[b"abb"]));
    check(&rt, &Text(*b""), LETTERS, |text: &[u8]| is_in(text, &[b""]));
}

#[test]
fn a_sequence(rt: HostRuntime) {
    let quoted = Seq(Byte(b'"'), Seq(Run(NotQuote), Byte(b'"')));
    check(&rt, &quoted, LETTERS, |text: &[u8]| {
        let end = text.len();
        2 <= end && text[0] == b'"' && text[end - 1] == b'"' && has_no_quote(&text[1..end - 1])
    });
}

#[test]
fn an_option(rt: HostRuntime) {
    check(&rt, &Opt(Text(*b"ab")), LETTERS, |text: &[u8]| is_in(text, &[b"", b"ab"]));
    let both = Seq(Opt(Byte(b'a')), Opt(Byte(b'b')));
    check(&rt, &both, LETTERS, |text: &[u8]| {
        is_in(text, &[b"", b"a", b"b", b"ab"])
    });
}

#[test]
fn a_choice(rt: HostRuntime) {
    let quoted = Seq(Byte(b'"'), OneOf(Plain));
    check(&rt, &Alt(Text(*b"ab"), quoted), LETTERS, |text: &[u8]| {
        is_in(text, &[b"ab", b"\"a", b"\"b"])
    });
    check(&rt, &Alt(Opt(Byte(b'a')), Text(*b"bb")), LETTERS, |text: &[u8]| {
        is_in(text, &[b"", b"a", b"bb"])
    });
}
