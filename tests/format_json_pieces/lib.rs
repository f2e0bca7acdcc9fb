//! Tests of JSON values from bytes, complete and partial.
#![tactic(auto)]

#[cfg(test)]
mod begun;
#[cfg(test)]
mod extents;
#[cfg(test)]
mod pieces;
#[cfg(test)]
mod refused;
#[cfg(test)]
mod streams;
#[cfg(test)]
mod texts;
