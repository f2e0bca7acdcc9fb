//! The tests of whole messages of the Domain Name System.
#![tactic(auto)]

#[cfg(test)]
mod read;
#[cfg(test)]
mod refused;
