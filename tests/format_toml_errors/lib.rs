//! The tests of the offsets of errors in TOML.
#![tactic(auto)]

#[cfg(test)]
mod stops;
