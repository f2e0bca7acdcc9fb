//! The tests of recovery: the stream that records errors, the adapters that recover from them, and
//! whole parses that answer all of them.
#![tactic(auto)]

#[cfg(test)]
mod common;
#[cfg(test)]
mod memory;
#[cfg(test)]
mod places;
#[cfg(test)]
mod recoverable_parse;
#[cfg(test)]
mod resume_after;
#[cfg(test)]
mod retry_after;
#[cfg(test)]
mod stream;
