//! Small readers as the library's users write them, and functions that are parsers as users call
//! them, with their tests.
//!
//! The readers have no contracts: they show forms of code, for text, bytes and partial input, with
//! lifetimes and without. Those of the crate `example_callers` have exact contracts.
//!
//! - Parsers as functions, a statement each, into a struct: `read_entry`, `read_version`; over
//!   partial input: `read_head`.
//! - A literal between statements: `read_date`, `read_point`.
//! - A `match` on a token, and on one that is only looked at: `read_duration`, `read_value`.
//! - An optional part: `read_port`, and as one parser in `read_version`.
//! - A choice over any stream of text: `read_level`, `read_user`.
//! - An output that is parsed by `FromStr`, and verified by a closure that holds a parameter:
//!   `read_date`; a slice that another parser reads: `read_color`.
//! - Sequences that are discarded, and those with a part that is kept: `read_assignment`,
//!   `read_value`, `read_chunk_length`; length-prefixed bytes: `read_frame`.
//! - Parsers without arguments, as values under winnow's names.
//! - Lists over any stream: `read_numbers`, `read_array`, `read_settings`; and a list of slices
//!   with a lifetime after other parts: `read_named_words`.
//!
//! All of these but those of `forms` were proved to be safe, with no proof file. A parser of three
//! or more parts for one stream is expensive to prove: make a part a function, or make the function
//! generic over the stream, as `read_level`.
#![tactic(auto)]

#[cfg(test)]
mod choices;
#[cfg(test)]
mod forms;
#[cfg(test)]
mod functions;
#[cfg(test)]
mod lists;
#[cfg(test)]
mod names;
#[cfg(test)]
mod pieces;
#[cfg(test)]
mod records;
