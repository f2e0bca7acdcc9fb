//! The differences from winnow that `docs/DIFFERENCES.md` lists, a test each: a small program with
//! the behavior of the port. The table names the test.
#![tactic(auto)]

#[cfg(test)]
mod bytes;
#[cfg(test)]
mod errors;
#[cfg(test)]
mod expressions;
#[cfg(test)]
mod names;
#[cfg(test)]
mod parsers;
#[cfg(test)]
mod sequences;
#[cfg(test)]
mod streams;
#[cfg(test)]
mod texts;
