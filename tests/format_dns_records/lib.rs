//! The tests of records of the Domain Name System.
#![tactic(auto)]

#[cfg(test)]
mod data;
#[cfg(test)]
mod messages;
#[cfg(test)]
mod refused;
