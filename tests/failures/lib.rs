//! Tests of how parsers fail: error kinds, the remaining input, and offsets of errors.
#![tactic(auto)]

#[cfg(test)]
mod failing;
