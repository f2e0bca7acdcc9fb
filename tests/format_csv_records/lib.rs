//! The tests of records in one buffer, by any dialect, of documents, of tables from a reader in
//! chunks of each size, and of what is written.
#![tactic(auto)]

#[cfg(test)]
mod buffers;
#[cfg(test)]
mod dialects;
#[cfg(test)]
mod extents;
#[cfg(test)]
mod faults;
#[cfg(test)]
mod long;
#[cfg(test)]
mod pieces;
#[cfg(test)]
mod records;
#[cfg(test)]
mod refused;
#[cfg(test)]
mod tables;
#[cfg(test)]
mod written;
