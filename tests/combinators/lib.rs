//! The tests of choices, options, sequences and repetitions. A file has the name of winnow's
//! module, and a test that of the combinator.
#![tactic(auto)]

#[cfg(test)]
mod basic;
#[cfg(test)]
mod branch;
#[cfg(test)]
mod common;
#[cfg(test)]
mod joined;
#[cfg(test)]
mod multi;
#[cfg(test)]
mod sequence;
