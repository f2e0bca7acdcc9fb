//! Tests of hostile use: nothing hangs, aborts or returns a wrong result, for any children, input,
//! allocator and stream.
#![tactic(auto)]

#[cfg(test)]
mod common;
#[cfg(test)]
mod counts;
#[cfg(test)]
mod cuts;
#[cfg(test)]
mod depth;
#[cfg(test)]
mod escapes;
#[cfg(test)]
mod impossible_bits;
#[cfg(test)]
mod memory;
#[cfg(test)]
mod nothing;
#[cfg(test)]
mod powers;
#[cfg(test)]
mod program;
#[cfg(test)]
mod recovery;
#[cfg(test)]
mod searches;
#[cfg(test)]
mod states;
