//! The tests of operator expressions.
#![tactic(auto)]

#[cfg(test)]
mod alike;
#[cfg(test)]
mod edges;
#[cfg(test)]
mod every_text;
#[cfg(test)]
mod grammar;
#[cfg(test)]
mod memory;
#[cfg(test)]
mod numbers;
#[cfg(test)]
mod search;
#[cfg(test)]
mod shape;
#[cfg(test)]
mod trees;
