//! The tests of boolean formulas.
#![tactic(auto)]

#[cfg(test)]
mod values;
