//! Tests of the binary parsers. A file is named after the module that it tests, and a test, or the
//! label of a row, after the parser.
#![tactic(auto)]

#[cfg(test)]
mod common;
#[cfg(test)]
mod integers;
#[cfg(test)]
mod lengths;
