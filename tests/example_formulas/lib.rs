//! The tests of sizes.
#![tactic(auto)]

#[cfg(test)]
mod sizes;
