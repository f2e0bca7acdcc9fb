//! The tests of numbers of JSON as decimals.
#![tactic(auto)]

#[cfg(test)]
mod decimals;
