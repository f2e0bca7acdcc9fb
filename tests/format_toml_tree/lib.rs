//! The tests of trees of documents of TOML.
#![tactic(auto)]

#[cfg(test)]
mod accepted;
#[cfg(test)]
mod date_times;
#[cfg(test)]
mod deep;
#[cfg(test)]
mod levels;
#[cfg(test)]
mod lines;
#[cfg(test)]
mod refused;
