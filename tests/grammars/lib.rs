//! Tests of parsers against their grammars: compositions made at random, each run and compared with
//! its grammar, which an interpreter evaluates from the words of `Grammar.antt`.
//!
//! A composition is a [`tree::Tree`]. As a parser it runs the library's own combinators
//! (`parsers.rs`); its grammar is evaluated by trying every value that the definitions quantify
//! over (`standing.rs`), without using a parser.
//!
//! There are 1,000 compositions of depth 1 at most, 3,000 of depth 2 and 6,000 of depth 3. Each
//! runs on six complete inputs: output and rest, or the backtrack, must be the grammar's. Those
//! without `Rest`, `RestLen` and `Eof` also run, over `Partial`, on each prefix of the first input.
//! There the result must be `Incomplete` if and only if each parser specifies it for that prefix.
//! Each other result must be the grammar's for that prefix and each longer one of the same input.
//! Outputs are compared by size and a digest of 64 bits. It leaves out:
//!
//! - Parsers: literals that are a character or a slice of bytes, `Caseless` of bytes, `literal(t)`,
//!   `Newline`, `Tab`, `Crlf`, `Empty`, `(p,)`, tuples and choices of four to six, choices of
//!   lists, `default_value`, `output_into`, `try_map`, `parse_to`, `span`, `with_span`, `context`,
//!   `err_into`, `map_err`, `map_err_kept`, `complete_err`, `cut_err`, `Name.by(f)`,
//!   `Name.by_pieces(f)`; classes but `Alpha1` and `Digit0`, integers but `BeU16` and `LeI16`,
//!   numbers but `u8` and `i8`.
//! - Streams: all but `&[u8]` and `Partial<&[u8]>`; bytes but the sixteen of `aAbF0123568,-+\r\n`.
//! - Errors: all but `ErrMode<EmptyError>`; the contents of an error; out of memory.
//! - Parts: accumulators but a list, a number and `()`; sets but slices of bytes; ranges with a
//!   least number above 2 or a greatest above 4; lengths but a digit from 0 to 3; `and_then` after
//!   anything but `take`; closures but those of `closures.rs`; compositions whose premise does not
//!   hold.
//! - Partial input: continuations but the bytes that were cut off.
#![tactic(auto)]

#[cfg(test)]
mod begun;
#[cfg(test)]
mod closures;
#[cfg(test)]
mod compositions;
#[cfg(test)]
mod generator;
#[cfg(test)]
mod leaves;
#[cfg(test)]
mod parsers;
#[cfg(test)]
mod random;
#[cfg(test)]
mod rows;
#[cfg(test)]
mod shown;
#[cfg(test)]
mod standing;
#[cfg(test)]
mod tree;
#[cfg(test)]
mod words;
