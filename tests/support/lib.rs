//! Common helpers for tests: streams made of texts, calls of parsers and their results, comparisons
//! that name their row, a parser that fails, an allocator that fails, an error that is out of
//! memory, and one that keeps its positions.
#![tactic(auto)]

pub mod at;
pub mod counting;
pub mod failing;
pub mod outcomes;
pub mod placed;
pub mod refusing;
pub mod rows;
pub mod texts;
pub mod wanting;
