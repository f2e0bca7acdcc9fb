//! Tests of the parsers of tokens, of ASCII's classes and line endings, and of numbers as text. A
//! file is named after winnow's module, and a test after the parser.
#![tactic(auto)]

#[cfg(test)]
mod ascii;
#[cfg(test)]
mod token;
