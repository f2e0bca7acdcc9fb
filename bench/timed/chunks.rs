//! Input that arrives in chunks, by machines: heads of requests, frames with a length, and lines
//! with quotes.
#![tactic(
    auto,
    unfolding(machines::specs::Grammar::AreDisjoint, machines::specs::Grammar::disjoint_below)
)]

ghost use Rattle.std.specs.Prelude.{◌&&◌, ◌||◌, ◌==◌, leb, not};
ghost use Rattle.std.proofs.Common.{refl};

use crate::outcome::Outcome;
use machines::counted::Counted;
use machines::digits::{Decimal, Numeral};
use machines::examples::{NotQuote, Plain};
use machines::extent::{advance, begin};
use machines::machine::Machine;
use machines::seq::Seq;
use machines::sets::{Byte, ByteSet, OneOf, Run};
use machines::star::Star;
use machines::text::Text;

/// Counts the words of a machine in input that arrives in chunks of `chunk` bytes. The sum depends
/// on the length of each; the rest starts after the last one.
#[inline(always)]
fn words<M: Machine>(machine: &M, chunk: usize, input: &[u8]) -> Outcome
    requires { M.sound machine.now }
{
    let mut count: u64 = 0;
    let mut sum: u64 = 0;
    let mut start: usize = 0;
    let mut end: usize = 0;
    let mut extent = begin(machine);
    // Each turn passes a word or a chunk.
    for _ in 0..input.len().saturating_mul(2) {
        let Some(bytes) = input.get(start..end) else {
            break;
        };
        match advance(machine, &mut extent, bytes) {
            Ok(Some(length)) => {
                count = count.wrapping_add(1);
                sum = sum.wrapping_mul(3).wrapping_add(length as u64);
                start = start.wrapping_add(length);
                extent = begin(machine);
            }
            Ok(None) => {
                if end == input.len() {
                    break;
                }
                end = end.saturating_add(chunk).min(input.len());
            }
            Err(_) => break,
        }
    }
    let left = input.len().wrapping_sub(start) as u64;
    Outcome { count, sum, left }
}

/// The bytes of names and methods: letters, digits and dashes.
#[derive(Clone, Copy)]
struct Name;

impl ByteSet for Name {
    ghost within = { λ _ b. (leb 97 b && leb b 122) || (leb 65 b && leb b 90)
        || (leb 48 b && leb b 57) || b == 45 };

    ghost nonempty = { λ _. (97, refl) };

    #[inline(always)]
    fn has(&self, byte: u8) -> bool {
        (b'a' <= byte && byte <= b'z')
            || (b'A' <= byte && byte <= b'Z')
            || (b'0' <= byte && byte <= b'9')
            || byte == b'-'
    }
}

/// The bytes of targets.
#[derive(Clone, Copy)]
struct Visible;

impl ByteSet for Visible {
    ghost within = { λ _ b. leb 33 b && leb b 126 };

    ghost nonempty = { λ _. (97, refl) };

    #[inline(always)]
    fn has(&self, byte: u8) -> bool {
        b'!' <= byte && byte <= b'~'
    }
}

/// The bytes of values: all except control characters, and the tab.
#[derive(Clone, Copy)]
struct Value;

impl ByteSet for Value {
    ghost within = { λ _ b. (leb 32 b && not (b == 127)) || b == 9 };

    ghost nonempty = { λ _. (97, refl) };

    #[inline(always)]
    fn has(&self, byte: u8) -> bool {
        (b' ' <= byte && byte != 127) || byte == b'\t'
    }
}

/// Heads of requests: a request line, header lines, and an empty line.
#[unsafe(no_mangle)]
pub extern "C" fn timed_heads_in_chunks(chunk: usize, input: &[u8], out: &mut Outcome) {
    let end = Text(*b"\r\n");
    let name = Seq(OneOf(Name), Run(Name));
    let header = Seq(name, Seq(Byte(b':'), Seq(Run(Value), end)));
    let target = Seq(
        Byte(b' '),
        Seq(Seq(OneOf(Visible), Run(Visible)), Text(*b" HTTP/1.1\r\n")),
    );
    let head = Seq(Seq(name, target), Seq(Star(header), end));
    *out = words(&head, chunk, input);
}

/// Frames: the length of the data in digits, at most 4096, a colon, the data, and a comma.
#[unsafe(no_mangle)]
pub extern "C" fn timed_frames_in_chunks(chunk: usize, input: &[u8], out: &mut Outcome) {
    let length = Numeral {
        radix: Decimal,
        limit: 4096,
        mark: Byte(b':'),
    };
    *out = words(&Seq(Counted(length), Byte(b',')), chunk, input);
}

/// Lines, which newlines in quotes do not end.
#[unsafe(no_mangle)]
pub extern "C" fn timed_lines_in_chunks(chunk: usize, input: &[u8], out: &mut Outcome) {
    let quoted = Seq(Byte(b'"'), Seq(Run(NotQuote), Byte(b'"')));
    let line = Seq(
        Run(Plain),
        Seq(Star(Seq(quoted, Run(Plain))), Byte(b'\n')),
    );
    *out = words(&line, chunk, input);
}
