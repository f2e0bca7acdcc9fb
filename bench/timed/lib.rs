//! The workloads of the benchmarks. Each makes one or more calls of the library over one text.
#![tactic(auto)]

pub mod binary;
pub mod bits;
pub mod chunks;
pub mod documents;
pub mod escapes;
pub mod fields;
pub mod formats;
pub mod formulas;
pub mod heads;
pub mod lists;
pub mod names;
pub mod numbers;
pub mod outcome;
pub mod searches;
pub mod words;
