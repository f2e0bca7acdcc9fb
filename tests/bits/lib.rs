//! The tests of bits: the stream, and the parsers of `winnow::binary::bits`.
#![tactic(auto)]

#[cfg(test)]
mod bits;
#[cfg(test)]
mod nested;
#[cfg(test)]
mod refusals;
#[cfg(test)]
mod stream;
