//! The tests of TOML by one entry.
#![tactic(auto)]

#[cfg(test)]
mod faults;
#[cfg(test)]
mod memory;
#[cfg(test)]
mod invalid_strings;
#[cfg(test)]
mod invalid_tables;
#[cfg(test)]
mod invalid_values;
#[cfg(test)]
mod suite;
#[cfg(test)]
mod valid_tables;
#[cfg(test)]
mod valid_values;
