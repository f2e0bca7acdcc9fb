//! Strings with escapes.
#![tactic(auto, using(winnow::specs::Rules::ends_follow))]

ghost use Rattle.winnow.specs.Terms.{AnyOutcome, meets_no_terms, no_terms};
ghost use Rattle.std.specs.Prelude.{⊤};
ghost use Rattle.winnow.specs.Input.{IsEndOf};
ghost use Rattle.winnow.specs.Text.{text_input, text_reading};

use crate::outcome::Outcome;
use std::alloc::Global;
use std::str;
use winnow::ascii::escaped;
use winnow::combinator::repeat;
use winnow::error::{EmptyError, ErrMode};
use winnow::prelude::*;
use winnow::token::impls::Any;
use winnow::token::take_until;

/// Returns the character that is escaped as a backslash and `character`.
fn named(character: char) -> Option<char> {
    match character {
        '"' | '\\' => Some(character),
        'n' => Some('\n'),
        't' => Some('\t'),
        _ => None,
    }
}

/// Parses the contents of a quoted string, and decodes its escapes.
fn unescaped<'i>(alloc: Global, input: &mut &'i str) -> Result<String, ErrMode<EmptyError>>
    ensures { IsEndOf text_reading (text_input input.new.now) (text_input input.old.now) }
{
    let plain = take_until(1.., ('"', '\\'));
    escaped(alloc, plain, '\\', Any.verify_map(named)).parse_next(input)
}

/// Parses a quoted string followed by a comma, and decodes its escapes.
fn text<'i>(alloc: Global, input: &mut &'i str) -> Result<String, ErrMode<EmptyError>>
    ensures { IsEndOf text_reading (text_input input.new.now) (text_input input.old.now) }
{
    let begins: Result<char, ErrMode<EmptyError>> = '"'.parse_next(input);
    if let Err(error) = begins {
        return Err(error);
    }
    let text = match unescaped(alloc, input) {
        Ok(text) => text,
        Err(error) => return Err(error),
    };
    match "\",".parse_next(input) {
        Ok(_) => Ok(text),
        Err(error) => Err(error),
    }
}

/// The parser of a string.
#[derive(Clone, Copy, Drop)]
struct TextReader {
    alloc: Global,
}

impl<'i> Parser<&'i str, String, ErrMode<EmptyError>> for TextReader {
    ghost State = { ⊤ };

    ghost state = { λ _. tt };

    ghost does = { AnyOutcome };

    ghost terms = { no_terms };

    ghost lawful = { meets_no_terms };

    #[inline(always)]
    fn parse_next(&mut self, input: &mut &'i str) -> Result<String, ErrMode<EmptyError>> {
        text(self.alloc, input)
    }
}

/// Parses as many strings as possible. Returns their number and their length in bytes.
fn texts<'i>(alloc: Global, input: &mut &'i str) -> Result<(u64, u64), ErrMode<EmptyError>> {
    repeat(alloc, 0.., TextReader { alloc })
        .fold(
            || (0u64, 0u64),
            |all: (u64, u64), text: String| {
                (all.0.wrapping_add(1), all.1.wrapping_add(text.len() as u64))
            },
        )
        .parse_next(input)
}

/// Parses quoted strings, each followed by a comma. Counts them, and sums their decoded lengths in
/// bytes. `out` stays zero if the input is not UTF-8 or an allocation fails.
#[unsafe(no_mangle)]
pub extern "C" fn timed_escapes(alloc: Global, input: &[u8], out: &mut Outcome) {
    *out = Outcome {
        count: 0,
        sum: 0,
        left: 0,
    };
    let Ok(text) = str::from_utf8(input) else {
        return;
    };
    let mut rest = text;
    if let Ok(all) = texts(alloc, &mut rest) {
        out.count = all.0;
        out.sum = all.1;
        out.left = rest.as_bytes().len() as u64;
    }
}
