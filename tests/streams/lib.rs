//! Tests of the streams, of sets, comparisons and searches, and of errors; and of the failing
//! allocator, on which other tests depend. A file is named after the module that it tests.
#![tactic(auto)]

#[cfg(test)]
mod accumulate;
#[cfg(test)]
mod as_char;
#[cfg(test)]
mod byte_set;
#[cfg(test)]
mod bytes;
#[cfg(test)]
mod caseless;
#[cfg(test)]
mod compare;
#[cfg(test)]
mod context_error;
#[cfg(test)]
mod fault;
#[cfg(test)]
mod find;
#[cfg(test)]
mod mode;
#[cfg(test)]
mod needed;
#[cfg(test)]
mod numbers;
#[cfg(test)]
mod parse_slice;
#[cfg(test)]
mod parser_error;
#[cfg(test)]
mod range;
#[cfg(test)]
mod refusing;
#[cfg(test)]
mod sets;
#[cfg(test)]
mod text;
#[cfg(test)]
mod token_slice;
#[cfg(test)]
mod wrapped;
