//! The tests of trees of numbers in brackets.
#![tactic(auto)]

#[cfg(test)]
mod refused;
#[cfg(test)]
mod trees;
