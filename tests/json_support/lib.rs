//! Common helpers for tests of JSON values: values as text, and reads with allocation failures.
#![tactic(auto)]

pub mod refused;
pub mod shown;
