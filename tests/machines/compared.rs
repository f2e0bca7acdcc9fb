//! The result of a machine on all short inputs, compared with one that is found by trying words.
use machines::extent::{advance, begin};
use machines::machine::Machine;
use std::process::Abort;

/// The inputs of a check: all of at most `longest` of these letters. Each state can be completed
/// by at most `more` letters.
#[derive(Clone, Copy)]
pub struct Inputs {
    pub letters: &'static [u8],
    pub longest: usize,
    pub more: usize,
}

const ROOM: usize = 16;

/// Whether the text is one of these words.
pub fn is_in(text: &[u8], words: &[&[u8]]) -> bool {
    for word in words {
        if text == *word {
            return true;
        }
    }
    false
}

/// Whether the first `length` bytes and at least `least` and at most `most` more letters are a word.
fn is_completed(
    bytes: &mut [u8; ROOM],
    length: usize,
    least: usize,
    most: usize,
    letters: &[u8],
    is_word: fn(&[u8]) -> bool,
) -> bool {
    if least == 0 && is_word(&bytes[..length]) {
        return true;
    }
    if most == 0 {
        return false;
    }
    for letter in letters {
        bytes[length] = *letter;
        if is_completed(bytes, length + 1, least.saturating_sub(1), most - 1, letters, is_word) {
            return true;
        }
    }
    false
}

fn can_continue(text: &[u8], least: usize, inputs: Inputs, is_word: fn(&[u8]) -> bool) -> bool {
    let mut bytes = [0u8; ROOM];
    for at in 0..text.len() {
        bytes[at] = text[at];
    }
    is_completed(&mut bytes, text.len(), least, inputs.more, inputs.letters, is_word)
}

/// The length of the longest word, that more is needed, or the first invalid offset.
fn expected(text: &[u8], inputs: Inputs, is_word: fn(&[u8]) -> bool) -> Result<Option<usize>, usize> {
    let mut valid = 0;
    while valid < text.len() && can_continue(&text[..valid + 1], 0, inputs, is_word) {
        valid += 1;
    }
    if valid < text.len() {
        return if is_word(&text[..valid]) { Ok(Some(valid)) } else { Err(valid) };
    }
    if can_continue(text, 1, inputs, is_word) { Ok(None) } else { Ok(Some(valid)) }
}

/// Calls the machine on `text` in every two pieces, and in single bytes.
pub fn check_text<M: Machine>(
    rt: &impl Abort,
    machine: &M,
    text: &[u8],
    want: Result<Option<usize>, usize>,
) {
    for cut in 0..text.len() + 1 {
        let mut extent = begin(machine);
        let _ = advance(machine, &mut extent, &text[..cut]);
        assert_eq!(rt; advance(machine, &mut extent, text), want, "{text:?} {cut}");
    }
    let mut extent = begin(machine);
    for end in 0..text.len() {
        let _ = advance(machine, &mut extent, &text[..end]);
    }
    assert_eq!(rt; advance(machine, &mut extent, text), want, "{text:?}");
}

/// Compares the machine with a definition of its words, on all inputs.
pub fn check<M: Machine>(
    rt: &impl Abort,
    machine: &M,
    inputs: Inputs,
    is_word: fn(&[u8]) -> bool,
) {
    let mut bytes = [0u8; ROOM];
    for length in 0..inputs.longest + 1 {
        for number in 0..inputs.letters.len().pow(length as u32) {
            let mut rest = number;
            for at in 0..length {
                bytes[at] = inputs.letters[rest % inputs.letters.len()];
                rest /= inputs.letters.len();
            }
            let text = &bytes[..length];
            check_text(rt, machine, text, expected(text, inputs, is_word));
        }
    }
}
