//! Tests of incremental decoding of chunked bodies.
#![tactic(auto)]

#[cfg(test)]
mod bodies;
#[cfg(test)]
mod made;
#[cfg(test)]
mod refused;
