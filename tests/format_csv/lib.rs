//! The tests of records and documents of comma separated values.
#![tactic(auto)]

#[cfg(test)]
mod documents;
#[cfg(test)]
mod fields;
#[cfg(test)]
mod pieces;
#[cfg(test)]
mod refused;
#[cfg(test)]
mod tables;
