//! The tests of the calculator.
#![tactic(auto)]

#[cfg(test)]
mod values;
