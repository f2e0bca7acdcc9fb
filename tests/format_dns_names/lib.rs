//! The tests of names in messages of the Domain Name System.
#![tactic(auto)]

#[cfg(test)]
mod names;
#[cfg(test)]
mod questions;
#[cfg(test)]
mod refused;
#[cfg(test)]
mod shown;
