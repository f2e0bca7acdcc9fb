//! The tests of text with escapes. A file has the name of winnow's module, and a test begins with
//! the name of its parser.
#![tactic(auto)]

#[cfg(test)]
mod ascii;
