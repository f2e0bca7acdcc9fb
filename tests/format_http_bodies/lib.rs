//! The tests of how long the bodies of messages are, and of whether connections persist.
#![tactic(auto)]

#[cfg(test)]
mod framing;
#[cfg(test)]
mod persistence;
#[cfg(test)]
mod refusals;
