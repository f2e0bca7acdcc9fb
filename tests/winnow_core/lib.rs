//! The tests of the calls of `Parser`, of its adapters, of literals by value and tuples, and of
//! `eof`. A file has the name of winnow's module, and a test that of the parser.
#![tactic(auto)]

#[cfg(test)]
mod combinator;
#[cfg(test)]
mod literals;
#[cfg(test)]
mod parse_iter;
#[cfg(test)]
mod parser;
